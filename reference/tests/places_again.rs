//! What is wrong with bytes, found a second time: from the bytes alone, clause
//! by clause as the rules have it, however slow that is.

use std::collections::BTreeMap;

use fenstubble_reference::bytes::{self, Version};
use fenstubble_reference::generate::{self, Random, Shape};

/// Bytes a row of each section.
const WIDTHS: [usize; 5] = [8, 5, 8, 4, 12];

/// Bytes with a header and as many rows as it says.
struct Rows<'a> {
    bytes: &'a [u8],
    users: u32,
    leavers: u64,
    /// Where each section starts, and its rows.
    sections: [(usize, usize); 5],
}

/// The number in so many bytes, the lowest first.
fn number(bytes: &[u8], at: usize, width: usize) -> u64 {
    let number = |sum, byte: &u8| sum * 256 + u64::from(*byte);
    bytes[at..at + width].iter().rev().fold(0, number)
}

fn alone(set: u64) -> bool {
    set.count_ones() == 1
}

impl Rows<'_> {
    fn place(&self, section: usize, row: usize) -> usize {
        self.sections[section].0 + row * WIDTHS[section]
    }

    fn count(&self, section: usize) -> usize {
        self.sections[section].1
    }

    fn row(&self, section: usize, row: usize) -> &[u8] {
        let place = self.place(section, row);
        &self.bytes[place..place + WIDTHS[section]]
    }

    /// The set of a vertex, inner (0) or outer (2).
    fn set(&self, layer: usize, vertex: u64) -> u64 {
        number(self.row(layer, vertex as usize), 0, 8)
    }

    /// From, to and kind of a token: of the inner layer (0) or the outer (2),
    /// where all have kind 0.
    fn token(&self, layer: usize, row: usize) -> (u64, u64, u8) {
        let bytes = self.row(layer + 1, row);
        let kind = if layer == 0 { bytes[4] } else { 0 };
        (number(bytes, 0, 2), number(bytes, 2, 2), kind)
    }

    /// Everyone in the sets from which a token of that kind leads to a vertex.
    fn leading(&self, layer: usize, vertex: u64, kind: u8) -> u64 {
        let tokens = (0..self.count(layer + 1)).map(|row| self.token(layer, row));
        tokens
            .filter(|token| token.1 == vertex && token.2 == kind)
            .fold(0, |all, token| all | self.set(layer, token.0))
    }

    fn strangers(&self, set: u64) -> bool {
        (self.users..64).any(|user| set >> user & 1 == 1)
    }

    fn earlier_equal(&self, section: usize, row: usize) -> bool {
        (0..row).any(|other| self.row(section, other) == self.row(section, row))
    }

    /// Whether the row breaks S1 to S8, by number.
    fn breaks(&self, rule: u8, section: usize, row: usize) -> bool {
        let layer = section / 2 * 2;
        let vertices = self.count(layer) as u64;
        match (rule, section) {
            (1, 0 | 2) => self.strangers(self.set(section, row as u64)),
            (1, 1 | 3) => {
                let (from, to, kind) = self.token(layer, row);
                from >= vertices || to >= vertices || kind > 1
            }
            (1, _) => {
                let folder = self.row(4, row);
                let outer = number(folder, 10, 2);
                let list = number(folder, 0, 8);
                self.strangers(list)
                    || (0..64).any(|user| list >> user & 1 == 1 && self.leavers >> user & 1 == 1)
                    || number(folder, 8, 2) >= self.count(0) as u64
                    || (outer != 65535 && outer >= self.count(2) as u64)
            }
            (2, 0) => self.set(0, row as u64) == 0,
            (2, 1 | 3) => {
                let (_, to, kind) = self.token(layer, row);
                kind == 0 && alone(self.set(layer, to))
            }
            (3, 0 | 2) => self.earlier_equal(section, row),
            (4, 1 | 3) => {
                let (from, to, kind) = self.token(layer, row);
                let (from, to) = (self.set(layer, from), self.set(layer, to));
                kind == 0 && (from == 0 || from & to != from || from == to)
            }
            (5, 0 | 2) => {
                let set = self.set(section, row as u64);
                !alone(set) && set != self.leading(section, row as u64, 0)
            }
            (6, 1 | 3) => {
                let (from, to, kind) = self.token(layer, row);
                let (from, to) = (self.set(layer, from), self.set(layer, to));
                let lets_in = alone(from) && from & to == 0;
                self.earlier_equal(section, row) || (kind == 1 && !lets_in)
            }
            (7 | 8, 4) => {
                let folder = self.row(4, row);
                let (list, inner) = (number(folder, 0, 8), number(folder, 8, 2));
                let holders = self.set(0, inner) | self.leading(0, inner, 1);
                if rule == 7 {
                    return list & holders != list;
                }
                let unlocked = self.bytes[5] == 1 && holders == list;
                match number(folder, 10, 2) {
                    65535 => !unlocked,
                    outer => unlocked || self.set(2, outer) != list,
                }
            }
            _ => false,
        }
    }

    /// Whether somebody has no own vertex.
    fn misses(&self) -> bool {
        let has = |layer: usize, own: u64| {
            let vertices = 0..self.count(layer) as u64;
            vertices
                .into_iter()
                .any(|vertex| self.set(layer, vertex) == own)
        };
        (0..self.users).any(|user| !has(0, 1 << user) || !has(2, 1 << user))
    }

    /// The first rule broken, and where.
    fn first(&self) -> Option<(u8, usize)> {
        for rule in 1..=8 {
            if rule == 1 && self.strangers(self.leavers) {
                return Some((31, 17));
            }
            if rule == 2 && self.misses() {
                return Some((32, 65535));
            }
            for section in 0..5 {
                for row in 0..self.count(section) {
                    if self.breaks(rule, section, row) {
                        return Some((30 + rule, self.place(section, row)));
                    }
                }
            }
        }
        None
    }
}

/// What is wrong with the bytes, and where.
fn first(bytes: &[u8]) -> Option<(u8, usize)> {
    let length = bytes.len();
    if length < 17 {
        return Some((24, length));
    }
    if &bytes[..3] != b"TKB" {
        return Some((20, 0));
    }
    let version = number(bytes, 3, 2);
    if version != 1 && version != 2 {
        return Some((21, 3));
    }
    if bytes[5] > 1 {
        return Some((22, 5));
    }
    let count = |at: usize| number(bytes, at, 2);
    let users = u64::from(bytes[6]);
    if users > 64 {
        return Some((23, 6));
    }
    for (at, limit) in [
        (7, 256),
        (9, users + count(7)),
        (11, 4096),
        (13, users + 448),
        (15, 4096),
    ] {
        if count(at) > limit {
            return Some((23, at));
        }
    }
    let mut end = if version == 1 { 17 } else { 25 };
    let sections = [9, 11, 13, 15, 7].map(|at| count(at) as usize);
    let sections = std::array::from_fn(|k| {
        let start = end;
        end += sections[k] * WIDTHS[k];
        (start, sections[k])
    });
    if length != end {
        return Some((24, length));
    }
    let rows = Rows {
        bytes,
        users: u32::from(bytes[6]),
        leavers: if version == 1 {
            0
        } else {
            number(bytes, 17, 8)
        },
        sections,
    };
    rows.first()
}

#[test]
fn the_same_by_both() {
    let random = &mut Random::new(31);
    let mut met: BTreeMap<Option<u8>, usize> = BTreeMap::new();
    for round in 0..12_000 {
        let shape = match round % 1000 {
            0 => Shape::wide(random),
            _ => Shape::small(random),
        };
        let mut book = generate::book(random, &shape);
        for _ in 0..random.below(4) {
            book = generate::damage(random, &book);
            // What does not fit into bytes is no damage to them.
            book.mode = book.mode.min(255);
            book.users = book.users.min(255);
        }
        let mut given = bytes::write_as(&book, Version::ALL[round % 2]);
        if random.chance(1, 4) {
            given = generate::damage_bytes(random, &given);
        }
        let fault = bytes::read(&given).err();
        let told = fault.map(|fault| (fault.number(), fault.place()));
        assert_eq!(told, first(&given), "round {round}: {given:?}");
        *met.entry(told.map(|told| told.0)).or_default() += 1;
    }
    let numbers = (20..=24).chain(31..=38);
    let all = std::iter::once(None).chain(numbers.map(Some));
    assert!(all.eq(met.keys().copied()), "{met:?}");
    assert!(met.values().all(|&count| count > 20), "{met:?}");
}

#[test]
fn the_same_by_both_on_large_books() {
    let random = &mut Random::new(32);
    let mut met = Vec::new();
    for round in 0..16 {
        let shape = Shape::full(random);
        let mut book = generate::book(random, &shape);
        // Equal rows far from each other, in the place of another row.
        let (inner, outer) = (&mut book.inner_tokens, &mut book.outer_tokens);
        if round % 2 == 0 {
            let late = random.between(outer.len() / 2, outer.len() - 1);
            outer[late] = outer[random.below(outer.len() / 2)];
        } else {
            let late = random.between(inner.len() / 2, inner.len() - 1);
            inner[late] = inner[random.below(inner.len() / 2)];
        }
        let mut given = bytes::write(&book);
        if random.chance(1, 4) {
            given = generate::damage_bytes(random, &given);
        }
        let fault = bytes::read(&given).err();
        let told = fault.map(|fault| (fault.number(), fault.place()));
        assert_eq!(told, first(&given));
        met.extend(told.map(|told| told.0));
    }
    assert!(met.contains(&36), "{met:?}");
}
