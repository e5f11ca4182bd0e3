//! Memory to lend: a stretch of a larger one, with canaries on both sides.

use fenstubble_reference::book::{Book, Head};
use fenstubble_reference::bytes::{read_rows, write_rows, LIMITS, WIDTHS};
use fenstubble_reference::generate::Random;
use fenstubble_reference::lent::Tables;

use crate::model::head_of;
use crate::side::{Call, Lending, SET};

/// Canaries before a lent stretch. An odd number, so that bytes are lent at
/// odd addresses.
const BEFORE: usize = 17;
/// Canaries after a lent stretch: some rows of any table.
const AFTER: usize = 64;

/// What can be lent.
pub trait Cell: Copy + Default + Eq + std::fmt::Debug {
    /// The canary of a place; neighbours differ.
    fn canary(place: usize) -> Self;
}

impl Cell for u8 {
    fn canary(place: usize) -> u8 {
        (place * 151 + 0x5B) as u8
    }
}

impl Cell for u16 {
    fn canary(place: usize) -> u16 {
        (place * 40_503 + 0x5B5B) as u16
    }
}

impl Cell for u64 {
    fn canary(place: usize) -> u64 {
        u64::from_le_bytes([u8::canary(place); 8])
    }
}

/// A lent stretch and its canaries.
#[derive(Clone, Debug, PartialEq, Eq)]
pub struct Memory<T> {
    cells: Vec<T>,
}

/// Where two memories that began alike are different.
#[derive(Clone, Copy, Debug, PartialEq, Eq)]
pub enum Place {
    /// So far before the lent start.
    Before(usize),
    /// At that place of the lent stretch.
    At(usize),
    /// So far past the lent end.
    Past(usize),
}

impl<T: Cell> Memory<T> {
    /// Memory that holds these.
    pub fn of(content: &[T]) -> Memory<T> {
        let mut cells = Vec::with_capacity(BEFORE + content.len() + AFTER);
        cells.extend((0..BEFORE).map(T::canary));
        cells.extend_from_slice(content);
        cells.extend((0..AFTER).map(T::canary));
        Memory { cells }
    }

    /// How long the lent stretch is.
    pub fn len(&self) -> usize {
        self.cells.len() - BEFORE - AFTER
    }

    /// Whether nothing is lent.
    pub fn is_empty(&self) -> bool {
        self.len() == 0
    }

    /// What is lent.
    pub fn content(&self) -> &[T] {
        &self.cells[BEFORE..BEFORE + self.len()]
    }

    /// Lends it.
    pub fn lend(&mut self) -> &mut [T] {
        let end = BEFORE + self.len();
        &mut self.cells[BEFORE..end]
    }

    /// The first place where the other is different, with both cells.
    pub fn difference(&self, other: &Memory<T>) -> Option<(Place, T, T)> {
        if self.cells == other.cells {
            return None;
        }
        let at = (0..self.cells.len()).find(|&at| self.cells[at] != other.cells[at])?;
        let end = BEFORE + self.len();
        let place = if at < BEFORE {
            Place::Before(BEFORE - at)
        } else if at < end {
            Place::At(at - BEFORE)
        } else {
            Place::Past(at - end)
        };
        Some((place, self.cells[at], other.cells[at]))
    }
}

impl<T: Cell> Default for Memory<T> {
    fn default() -> Memory<T> {
        Memory::of(&[])
    }
}

/// The names of the five tables.
pub const TABLES: [&str; 5] = [
    "inner vertices",
    "inner tokens",
    "outer vertices",
    "outer tokens",
    "resources",
];

/// What stands in the lent memory that belongs to nobody.
#[derive(Clone, Copy, Debug, PartialEq, Eq)]
pub enum Filler {
    /// One byte everywhere.
    Same(u8),
    /// Bytes from this seed.
    Noise(u64),
}

impl Filler {
    /// Any filler.
    pub fn any(random: &mut Random) -> Filler {
        match random.below(4) {
            0 => Filler::Same(0),
            1 => Filler::Same(0xFF),
            2 => Filler::Same(random.next() as u8),
            _ => Filler::Noise(random.next()),
        }
    }

    /// So many bytes of it.
    pub fn bytes(self, length: usize) -> Vec<u8> {
        match self {
            Filler::Same(byte) => vec![byte; length],
            Filler::Noise(seed) => {
                let mut random = Random::new(seed);
                let mut bytes: Vec<u8> = (0..length.div_ceil(8))
                    .flat_map(|_| random.next().to_le_bytes())
                    .collect();
                bytes.truncate(length);
                bytes
            }
        }
    }

    /// So many numbers of it.
    pub fn numbers(self, length: usize) -> Vec<u16> {
        self.bytes(length * 2)
            .chunks_exact(2)
            .map(|two| u16::from_le_bytes([two[0], two[1]]))
            .collect()
    }
}

/// Everything that a call can be lent; what it does not take stays empty.
#[derive(Clone, Debug, Default, PartialEq, Eq)]
pub struct Lent {
    /// The head: as many numbers as it has, or more.
    pub head: Memory<u16>,
    /// The tables, in the order of the book's sections.
    pub tables: [Memory<u8>; 5],
    /// A book's bytes.
    pub book: Memory<u8>,
    /// The buffer to write to.
    pub buffer: Memory<u8>,
    /// The order list, or the list of an open.
    pub list: Memory<u16>,
    /// The list of an insert.
    pub set: Memory<u8>,
    /// The request rows of a serve.
    pub requests: Memory<u64>,
    /// The answer rows of a serve.
    pub answers: Memory<u16>,
}

impl Lent {
    /// The book's bytes alone, for a section.
    pub fn bytes(bytes: &[u8]) -> Lent {
        Lent {
            book: Memory::of(bytes),
            ..Lent::default()
        }
    }

    /// A head and tables full of nothing, as long as the limits ask for.
    pub fn blank(filler: Filler) -> Lent {
        Lent {
            head: Memory::of(&filler.numbers(Head::NUMBERS)),
            tables: std::array::from_fn(|k| Memory::of(&filler.bytes(LIMITS[k] * WIDTHS[k]))),
            ..Lent::default()
        }
    }

    /// The head and the tables of a book, as far as the tables go.
    pub fn of(book: &Book, filler: Filler) -> Lent {
        let mut lent = Lent::blank(filler);
        lent.put(book);
        lent
    }

    /// Puts the book's head and rows in the place of those that are there,
    /// as far as the tables go; all else stays.
    pub fn put(&mut self, book: &Book) {
        for (cell, number) in self.head.lend().iter_mut().zip(book.head().numbers()) {
            *cell = number;
        }
        let tables = self.lend().tables;
        write_rows(&book.inner_vertices, tables.inner_vertices);
        write_rows(&book.inner_tokens, tables.inner_tokens);
        write_rows(&book.outer_vertices, tables.outer_vertices);
        write_rows(&book.outer_tokens, tables.outer_tokens);
        write_rows(&book.resources, tables.resources);
    }

    /// The book in the head and the tables, sound or not, if the tables have
    /// as many rows as the head says.
    pub fn book_in_tables(&self) -> Option<Book> {
        let head = head_of(self.head.content()).ok()?;
        let counts = head.counts();
        let used: Vec<&[u8]> = (0..5)
            .map(|k| self.tables[k].content().get(..counts[k] * WIDTHS[k]))
            .collect::<Option<_>>()?;
        Some(Book {
            mode: head.mode,
            users: head.users,
            leavers: head.leavers,
            inner_vertices: read_rows(used[0]),
            inner_tokens: read_rows(used[1]),
            outer_vertices: read_rows(used[2]),
            outer_tokens: read_rows(used[3]),
            resources: read_rows(used[4]),
        })
    }

    /// The same for that call: an insert is lent its list.
    pub fn for_call(&self, call: Call) -> Lent {
        let mut lent = self.clone();
        if let Call::Insert(list, length) = call {
            let mut bytes = list.to_le_bytes().to_vec();
            bytes.extend(Filler::Noise(list).bytes(length.saturating_sub(SET)));
            bytes.truncate(length);
            lent.set = Memory::of(&bytes);
        }
        lent
    }

    /// Lends all of it.
    pub fn lend(&mut self) -> Lending<'_> {
        let [inner_vertices, inner_tokens, outer_vertices, outer_tokens, resources] =
            self.tables.each_mut().map(Memory::lend);
        Lending {
            head: self.head.lend(),
            tables: Tables {
                inner_vertices,
                inner_tokens,
                outer_vertices,
                outer_tokens,
                resources,
            },
            book: self.book.lend(),
            buffer: self.buffer.lend(),
            list: self.list.lend(),
            set: self.set.lend(),
            requests: self.requests.lend(),
            answers: self.answers.lend(),
        }
    }
}

#[cfg(test)]
mod tests {
    use super::*;

    #[test]
    fn canaries_are_seen() {
        let memory = Memory::of(&[1u8, 2, 3]);
        assert_eq!(memory.content(), [1, 2, 3]);
        assert_eq!(memory.difference(&memory.clone()), None);
        for (at, place) in [
            (0, Place::Before(BEFORE)),
            (BEFORE - 1, Place::Before(1)),
            (BEFORE, Place::At(0)),
            (BEFORE + 2, Place::At(2)),
            (BEFORE + 3, Place::Past(0)),
            (BEFORE + 2 + AFTER, Place::Past(AFTER - 1)),
        ] {
            let mut other = memory.clone();
            other.cells[at] ^= 0x10;
            let (found, _, _) = memory.difference(&other).unwrap();
            assert_eq!(found, place);
        }
    }

    #[test]
    fn a_list_in_bytes() {
        let list = 1 << 63 | 1 << 8 | 1;
        let lent = |length| Lent::default().for_call(Call::Insert(list, length)).set;
        assert_eq!(lent(SET).content(), [1, 1, 0, 0, 0, 0, 0, 0x80]);
        assert_eq!(lent(3).content(), [1, 1, 0]);
        assert_eq!(lent(0).content(), []);
        let longer = lent(20);
        assert_eq!(longer.len(), 20);
        assert_eq!(longer.content()[..SET], *lent(SET).content());
        assert!(longer.content()[SET..].iter().any(|&byte| byte != 0));
    }

    #[test]
    fn a_book_into_tables_and_back() {
        use fenstubble_reference::generate::{self, Shape};
        let mut random = Random::new(3);
        for _ in 0..20 {
            let shape = Shape::small(&mut random);
            let book = generate::book(&mut random, &shape);
            let lent = Lent::of(&book, Filler::any(&mut random));
            assert_eq!(lent.book_in_tables(), Some(book));
        }
    }
}
