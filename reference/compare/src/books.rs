//! Check, section, read and write, on byte strings and on tables.

use std::fmt;

use fenstubble_reference::book::{Book, Head, Mode, Section, SoundBook};
use fenstubble_reference::bytes::{
    self, Version, COUNT_PLACES, HEAD_LENGTH, LARGEST as LARGEST_BOOK, LIMITS, WIDTHS,
};
use fenstubble_reference::fault::Fault;
use fenstubble_reference::generate::{self, Random, Shape};
use fenstubble_reference::sets::UserSet;
use fenstubble_reference::sound::{broken_rules, At, Broken, Rule};

use crate::compare::Tally;
use crate::damage::{damaged, damaged_rows, rich, some_kind, some_version, Which, KINDS};
use crate::limits;
use crate::memory::{Filler, Lent, Memory, TABLES};
use crate::report::{random_of, Bounds, Report, Session};
use crate::shrink::{head_in, version_in};
use crate::side::Call;
use crate::worlds::{large, LARGEST, NEARLY};

/// The numbers that tell what is wrong with a book's bytes.
pub const NUMBERS: [u8; 13] = [20, 21, 22, 23, 24, 31, 32, 33, 34, 35, 36, 37, 38];

/// What was compared.
#[derive(Clone, Debug, Default)]
pub struct Summary {
    /// Byte strings.
    pub strings: usize,
    /// Byte strings that are a sound book, by version.
    pub sound: [usize; 2],
    /// Sound books in which somebody has left.
    pub left: usize,
    /// Damaged books that break one rule alone, by the rule.
    pub alone: [usize; 8],
    /// Where the counts were that were the first over their limit.
    pub counts: [usize; 6],
    /// Where the first rows were that break the first rule, by version.
    pub rows: [Rows; 2],
    /// The calls and their answers.
    pub tally: Tally,
}

impl Summary {
    /// What can be wrong with a book's bytes and was not met: numbers, counts,
    /// and rules by section and row.
    pub fn never_met(&self) -> Vec<String> {
        let mut never = Vec::new();
        for number in NUMBERS {
            for name in ["section", "read"] {
                if self.tally.of(name, number) == 0 {
                    never.push(format!("{name} {number}"));
                }
            }
        }
        for (count, at) in self.counts.iter().zip(COUNT_PLACES) {
            if *count == 0 {
                never.push(format!("23 at {at}"));
            }
        }
        for (rows, version) in self.rows.iter().zip(Version::ALL) {
            let number = version.number();
            let of = |what: String| format!("version {number}, {what}");
            never.extend(rows.never_met().into_iter().map(of));
            // Version 1 has no leavers.
            if version == Version::Two && rows.leavers == 0 {
                never.push(of("S1, the leavers".into()));
            }
        }
        never
    }
}

/// How often each rule was the first one broken, by where: each section, its
/// first row, its last row, and those between; how often a vertex was missing;
/// and how often the set of leavers broke it.
#[derive(Clone, Debug, Default)]
pub struct Rows {
    by_row: [[[usize; 3]; 5]; 8],
    missing: usize,
    leavers: usize,
}

/// The rows of a section, as they are counted.
const ENDS: [&str; 3] = ["first row", "between", "last row"];

impl Rows {
    /// Counts one, in a book with that head.
    fn count(&mut self, broken: Broken, rows: [usize; 5]) {
        let (section, row) = match broken.at {
            At::Row(section, row) => (section, row),
            At::Missing => {
                self.missing += 1;
                return;
            }
            At::Leavers => {
                self.leavers += 1;
                return;
            }
        };
        let counts = &mut self.by_row[broken.rule as usize][section.number()];
        let last = row + 1 == rows[section.number()];
        counts[0] += usize::from(row == 0);
        counts[1] += usize::from(row != 0 && !last);
        counts[2] += usize::from(last);
    }

    /// The sections in which a rule can be broken.
    fn sections(rule: Rule) -> &'static [Section] {
        use Section::{InnerTokens, InnerVertices, OuterTokens, OuterVertices, Resources};
        match rule {
            Rule::S1 => &Section::ALL,
            Rule::S2 => &[InnerVertices, InnerTokens, OuterTokens],
            Rule::S3 | Rule::S5 => &[InnerVertices, OuterVertices],
            Rule::S4 | Rule::S6 => &[InnerTokens, OuterTokens],
            Rule::S7 | Rule::S8 => &[Resources],
        }
    }

    /// Whether the first row of a section can break the rule: not where the
    /// later of equal rows does.
    fn first_row_can(rule: Rule, section: Section) -> bool {
        rule != Rule::S3 && (rule, section) != (Rule::S6, Section::OuterTokens)
    }

    /// What was not met.
    fn never_met(&self) -> Vec<String> {
        let mut never = Vec::new();
        if self.missing == 0 {
            never.push("S2, a missing vertex".into());
        }
        for rule in Rule::ALL {
            for &section in Rows::sections(rule) {
                let counts = self.by_row[rule as usize][section.number()];
                for (end, name) in ENDS.iter().enumerate() {
                    let can = end > 0 || Rows::first_row_can(rule, section);
                    if can && counts[end] == 0 {
                        let table = TABLES[section.number()];
                        never.push(format!("{rule:?}, {table}, {name}"));
                    }
                }
            }
        }
        never
    }
}

impl fmt::Display for Rows {
    fn fmt(&self, f: &mut fmt::Formatter<'_>) -> fmt::Result {
        writeln!(f, "first rules broken, by {}:", ENDS.join("/"))?;
        for rule in Rule::ALL {
            write!(f, "{rule:?}:")?;
            for &section in Rows::sections(rule) {
                let [first, between, last] = self.by_row[rule as usize][section.number()];
                let table = TABLES[section.number()];
                write!(f, " {table} {first}/{between}/{last};")?;
            }
            if rule == Rule::S1 {
                write!(f, " leavers {};", self.leavers)?;
            }
            if rule == Rule::S2 {
                write!(f, " a vertex missing {};", self.missing)?;
            }
            writeln!(f)?;
        }
        Ok(())
    }
}

impl fmt::Display for Summary {
    fn fmt(&self, f: &mut fmt::Formatter<'_>) -> fmt::Result {
        let [old, new] = self.sound;
        writeln!(
            f,
            "{} byte strings, {old} of them sound books of version 1, {new} of version 2 ({} with \
             leavers); {} calls: no difference",
            self.strings,
            self.left,
            self.tally.calls()
        )?;
        write!(f, "{}", self.tally)?;
        write!(f, "books that break one rule alone:")?;
        for (rule, count) in Rule::ALL.iter().zip(self.alone) {
            write!(f, " {rule:?} {count}")?;
        }
        write!(f, "\nfirst counts over their limit:")?;
        for (at, count) in COUNT_PLACES.iter().zip(self.counts) {
            write!(f, " at {at} {count}")?;
        }
        writeln!(f)?;
        for (rows, version) in self.rows.iter().zip(Version::ALL) {
            write!(f, "version {}, {rows}", version.number())?;
        }
        Ok(())
    }
}

/// Section numbers that are those of no section, besides 5 and 6.
const NO_SECTIONS: [usize; 6] = [255, 256, 260, 65535, 65536, usize::MAX];

/// Bytes above which not every section of a string is asked for.
const LARGE: usize = 4096;

type Outcome = Result<(), Box<Report>>;

/// The cases that are the same for every seed.
const FIXED: [fn(&mut Books, &mut Random) -> Outcome; 8] = [
    Books::short_strings,
    Books::every_head_byte,
    Books::around_the_limits,
    Books::every_head_number,
    Books::long_strings,
    Books::each_kind_of_damage,
    Books::each_pair_of_kinds,
    Books::large_books_damaged,
];

/// Lengths around that of the largest book, and around those that 16 bits
/// hold.
pub const LENGTHS: [usize; 10] = [
    LARGEST_BOOK - 1,
    LARGEST_BOOK,
    LARGEST_BOOK + 1,
    65_534,
    65_535,
    65_536,
    65_537,
    65_536 + 152,
    70_000,
    200_000,
];

/// Compares about so many byte strings, and tables along with them.
pub fn run(bounds: Bounds) -> Result<Summary, Box<Report>> {
    let mut books = Books {
        session: Session::new("books", bounds),
        summary: Summary::default(),
    };
    for case in bounds.first.. {
        books.session.case = case;
        let random = &mut random_of(bounds.seed, case);
        match FIXED.get(usize::try_from(case).unwrap_or(usize::MAX)) {
            Some(fixed) => fixed(&mut books, random)?,
            None if books.session.over() => break,
            None => books.around_a_book(random)?,
        }
        if books.summary.strings >= bounds.count {
            break;
        }
    }
    Ok(Summary {
        tally: books.session.tally,
        ..books.summary
    })
}

struct Books {
    session: Session,
    summary: Summary,
}

impl Books {
    /// All calls on one byte string.
    fn string(&mut self, random: &mut Random, bytes: &[u8]) -> Outcome {
        self.summary.strings += 1;
        self.count_fault(bytes);

        let lent = Lent::bytes(bytes);
        let mut sections: Vec<usize> = (0..=6).collect();
        sections.extend(random.pick(&NO_SECTIONS));
        if bytes.len() > LARGE && random.chance(7, 8) {
            random.shuffle(&mut sections);
            sections.truncate(2);
        }
        for k in sections {
            self.session.compare(Call::Section(k), &lent)?;
        }

        let mut lent = Lent::blank(Filler::any(random));
        if random.chance(1, 4) {
            longer(random, &mut lent);
        }
        lent.book = Memory::of(bytes);
        let read = self.session.compare(Call::Read, &lent)?;
        if random.chance(1, 8) {
            shorter(random, &mut lent);
            self.session.compare(Call::Read, &lent)?;
        }
        if read.answer.is_ok() {
            let version = version_in(bytes);
            self.summary.sound[usize::from(version == Version::Two)] += 1;
            let head = head_in(bytes);
            self.summary.left += usize::from(!head.leavers.is_empty());
            let mut lent = read.lent;
            lent.book = Memory::default();
            self.tables(random, &lent, bytes::length(&head, Version::Two))?;
        }
        Ok(())
    }

    /// Counts what is wrong with the bytes.
    fn count_fault(&mut self, given: &[u8]) {
        match bytes::read(given) {
            Err(Fault::Count { place, .. }) => {
                if let Some(at) = COUNT_PLACES.iter().position(|&at| at == place) {
                    self.summary.counts[at] += 1;
                }
            }
            Err(Fault::Broken { broken, .. }) => {
                let rows = head_in(given).counts();
                let version = usize::from(version_in(given) == Version::Two);
                self.summary.rows[version].count(broken, rows);
            }
            _ => {}
        }
    }

    /// Check and write on head and tables; a book of that length may be
    /// there.
    fn tables(&mut self, random: &mut Random, lent: &Lent, length: usize) -> Outcome {
        self.session.compare(Call::Check, lent)?;
        let lengths = [
            length,
            length.saturating_sub(1),
            length + 1 + random.below(40),
            random.below(length),
        ];
        let some = if length > LARGE { 2 } else { lengths.len() };
        for length in &lengths[..some] {
            let mut lent = lent.clone();
            lent.buffer = Memory::of(&Filler::any(random).bytes(*length));
            self.session.compare(Call::Write, &lent)?;
        }
        Ok(())
    }

    /// Check and write on the tables of a book, sound or not.
    fn tables_of(&mut self, random: &mut Random, book: &Book) -> Outcome {
        let lent = Lent::of(book, Filler::any(random));
        self.tables(random, &lent, bytes::length(&book.head(), Version::Two))
    }

    /// A book as bytes and as tables.
    fn book(&mut self, random: &mut Random, book: &Book) -> Outcome {
        self.string(random, &bytes::write(book))?;
        self.tables_of(random, book)
    }

    /// Strings of 0 to 26 bytes, a byte more than the empty book has; and those
    /// of a book, one byte after the other.
    fn short_strings(&mut self, random: &mut Random) -> Outcome {
        let most = Version::Two.leavers().end + 1;
        for version in Version::ALL {
            let whole = bytes::write_as(&sample(Mode::Delta), version);
            for mode in [Mode::Delta, Mode::Full] {
                let mut empty = bytes::write_as(&Book::empty(mode), version);
                empty.resize(most, 0);
                for length in 0..=most {
                    self.string(random, &empty[..length])?;
                    self.string(random, &whole[..length])?;
                    self.string(random, &vec![0; length])?;
                    self.string(random, &vec![0xFF; length])?;
                }
            }
            for length in HEAD_LENGTH..=whole.len() {
                self.string(random, &whole[..length])?;
            }
        }
        Ok(())
    }

    /// Every value of every byte of header and leavers, of version 1 some; and
    /// pairs of values of the version.
    fn every_head_byte(&mut self, random: &mut Random) -> Outcome {
        for (mode, version) in [
            (Mode::Delta, Version::Two),
            (Mode::Full, Version::Two),
            (Mode::Delta, Version::One),
        ] {
            let mut book = sample(mode);
            if version == Version::Two && mode == Mode::Delta {
                // Somebody who is on no list has left.
                book = left(book);
            }
            let whole = bytes::write_as(&book, version);
            for at in 0..version.leavers().end {
                for value in 0..=255 {
                    // Of the leavers of mode full, and of version 1, a few.
                    let few = version == Version::One || mode == Mode::Full && at >= HEAD_LENGTH;
                    if few && ![0, 1, 2, 3, 4, 7, 8, 64, 65, 128, 255].contains(&value) {
                        continue;
                    }
                    let mut bytes = whole.clone();
                    bytes[at] = value;
                    self.string(random, &bytes)?;
                }
            }
            for version in [
                [0, 0],
                [1, 0],
                [2, 0],
                [3, 0],
                [1, 1],
                [2, 1],
                [0, 1],
                [0, 2],
                [255, 255],
                [1, 255],
                [2, 255],
            ] {
                let mut bytes = whole.clone();
                bytes[3..5].copy_from_slice(&version);
                self.string(random, &bytes)?;
            }
        }
        Ok(())
    }

    /// Each count at, one below and one past its limit: in books that keep
    /// all else, and in heads alone, also with the length they ask for.
    fn around_the_limits(&mut self, random: &mut Random) -> Outcome {
        for mode in [Mode::Full, Mode::Delta] {
            for (counts, _) in limits::around() {
                let book = limits::book(mode, &counts);
                self.book(random, &book)?;
                if mode == Mode::Delta {
                    self.string(random, &bytes::write_as(&book, Version::One))?;
                }
            }
        }
        let largest = large(&LARGEST).book.into_book();
        self.book(random, &largest)?;
        self.string(random, &bytes::write_as(&largest, Version::One))?;
        for base in [sample(Mode::Delta), sample(Mode::Full)] {
            for version in Version::ALL {
                let whole = bytes::write_as(&base, version);
                for field in 0..6 {
                    for value in head_values(&base, field) {
                        let (alone, longer) = with_count(&whole, field, value);
                        self.string(random, &alone)?;
                        self.string(random, &longer)?;
                    }
                }
            }
        }
        Ok(())
    }

    /// Each number of the head of tables at its edges, and heads and tables
    /// of other lengths.
    fn every_head_number(&mut self, random: &mut Random) -> Outcome {
        for mode in [Mode::Delta, Mode::Full] {
            let book = left(sample(mode));
            let length = bytes::length(&book.head(), Version::Two);
            for at in 0..Head::NUMBERS {
                for value in (0..=70).chain([
                    255, 256, 257, 319, 320, 321, 447, 448, 449, 450, 451, 452, 511, 512, 513,
                    4095, 4096, 4097, 32767, 32768, 65280, 65534, 65535,
                ]) {
                    let mut lent = Lent::of(&book, Filler::any(random));
                    lent.head.lend()[at] = value;
                    self.tables(random, &lent, length)?;
                }
            }
            for numbers in 0..Head::NUMBERS + 3 {
                let mut lent = Lent::of(&book, Filler::Same(0xA1));
                let mut head = lent.head.content().to_vec();
                head.resize(numbers, 0x0101);
                lent.head = Memory::of(&head);
                self.tables(random, &lent, length)?;
                self.read_into(&lent, &bytes::write(&book))?;
            }
            for k in 0..5 {
                let most = LIMITS[k] * WIDTHS[k];
                for length_of_table in [0, 1, most - WIDTHS[k], most - 1, most, most + 1] {
                    let mut lent = Lent::of(&book, Filler::Same(0));
                    resize(&mut lent.tables[k], length_of_table);
                    self.tables(random, &lent, length)?;
                    self.read_into(&lent, &bytes::write(&book))?;
                }
            }
        }
        Ok(())
    }

    /// Long strings: a header that is fine, and one that is not, before noise or
    /// zeros.
    fn long_strings(&mut self, random: &mut Random) -> Outcome {
        for length in LENGTHS {
            for mode in [Mode::Delta, Mode::Full] {
                let mut bytes = bytes::write_as(&sample(mode), some_version(random));
                bytes.extend(Filler::any(random).bytes(length - bytes.len()));
                self.string(random, &bytes)?;
                for at in [0, 4, 5, 6, 16] {
                    let mut bytes = bytes.clone();
                    bytes[at] = 0xEE;
                    self.string(random, &bytes)?;
                }
            }
        }
        Ok(())
    }

    /// Each kind of damage at the first row, one in the middle and the last.
    fn each_kind_of_damage(&mut self, random: &mut Random) -> Outcome {
        for kind in KINDS {
            for which in Which::ENDS {
                for version in [Version::ALL; 6].concat() {
                    let book = rich(random);
                    if let Some(bytes) = damaged(random, &book, &[(kind, which)], version) {
                        self.string(random, &bytes)?;
                    }
                }
            }
        }
        Ok(())
    }

    /// Each pair of kinds, at any rows; so each pair of rules, and more often one
    /// rule at two rows.
    fn each_pair_of_kinds(&mut self, random: &mut Random) -> Outcome {
        for one in KINDS {
            for other in KINDS {
                let times = if one.number == other.number { 4 } else { 1 };
                for _ in 0..times {
                    let book = rich(random);
                    let kinds = [(one, Which::some(random)), (other, Which::some(random))];
                    let version = some_version(random);
                    if let Some(bytes) = damaged(random, &book, &kinds, version) {
                        self.string(random, &bytes)?;
                    }
                }
            }
        }
        Ok(())
    }

    /// Each kind of damage to the largest book, and to a nearly largest one that
    /// has room for more rows.
    fn large_books_damaged(&mut self, random: &mut Random) -> Outcome {
        for size in [LARGEST, NEARLY] {
            let book = large(&size).book.into_book();
            for kind in KINDS {
                for which in Which::ENDS {
                    let version = some_version(random);
                    if let Some(bytes) = damaged(random, &book, &[(kind, which)], version) {
                        self.string(random, &bytes)?;
                    }
                }
            }
        }
        Ok(())
    }

    /// Reads the bytes, and some that are no book, into what is lent.
    fn read_into(&mut self, lent: &Lent, bytes: &[u8]) -> Outcome {
        for bytes in [bytes, &bytes[1..], &[]] {
            let mut lent = lent.clone();
            lent.book = Memory::of(bytes);
            self.session.compare(Call::Read, &lent)?;
        }
        Ok(())
    }

    /// A random sound book and much that is wrong with it.
    fn around_a_book(&mut self, random: &mut Random) -> Outcome {
        let book = some_book(random);
        self.book(random, &book)?;
        let version = some_version(random);
        let whole = bytes::write_as(&book, version);
        if version == Version::One {
            self.string(random, &whole)?;
        }

        // One byte less, one more.
        self.string(random, &whole[..whole.len() - 1])?;
        let mut longer = whole.clone();
        longer.push(random.next() as u8);
        self.string(random, &longer)?;

        // A rule broken.
        for _ in 0..4 {
            let damaged = generate::damage(random, &book);
            if let [rule] = broken_rules(&damaged)[..] {
                self.summary.alone[rule as usize] += 1;
            }
            self.book(random, &damaged)?;
        }

        // One to three kinds of damage, each at some row.
        for _ in 0..6 {
            let mut kinds = vec![some_kind(random)];
            while kinds.len() < 3 && random.chance(1, 3) {
                kinds.push(some_kind(random));
            }
            if let Some(bytes) = damaged(random, &book, &kinds, version) {
                self.string(random, &bytes)?;
            }
        }
        if let Some(damaged) = damaged_rows(random, &book) {
            self.tables_of(random, &damaged)?;
        }

        // Any bytes changed.
        for _ in 0..6 {
            let damaged = generate::damage_bytes(random, &whole);
            self.string(random, &damaged)?;
        }
        let twice = generate::damage(random, &book);
        let twice = generate::damage_bytes(random, &bytes::write_as(&twice, version));
        self.string(random, &twice)?;

        // A count at some edge.
        let field = random.below(6);
        if let Some(value) = random.pick(&head_values(&book, field)) {
            let (alone, longer) = with_count(&whole, field, value);
            self.string(random, &alone)?;
            self.string(random, &longer)?;
        }

        self.around_tables(random, &book)
    }

    /// The book's tables with bytes changed before and past the counts, and
    /// tables and heads of other lengths.
    fn around_tables(&mut self, random: &mut Random, book: &Book) -> Outcome {
        let length = bytes::length(&book.head(), Version::Two);
        let counts = book.head().counts();
        let clean = Lent::of(book, Filler::any(random));

        // Past the counts: it must not matter.
        let mut lent = clean.clone();
        for (k, count) in counts.iter().enumerate() {
            let used = count * WIDTHS[k];
            let unused = &mut lent.tables[k].lend()[used..];
            for _ in 0..8 {
                let at = random.below(unused.len());
                if let Some(byte) = unused.get_mut(at) {
                    *byte = random.next() as u8;
                }
            }
            if let Some(first) = unused.first_mut() {
                *first ^= 0x80;
            }
        }
        self.tables(random, &lent, length)?;

        // Before them: it mostly does.
        for _ in 0..2 {
            let mut lent = clean.clone();
            let k = random.below(5);
            let at = random.below(counts[k] * WIDTHS[k]);
            lent.tables[k].lend()[at] ^= 1 << random.below(8);
            self.tables(random, &lent, length)?;
        }

        // A number of the head: one more or less, or any; and one leaver more or
        // less.
        let mut lent = clean.clone();
        let number = &mut lent.head.lend()[random.below(Head::NUMBERS)];
        *number = match random.below(3) {
            0 => number.wrapping_add(1),
            1 => number.wrapping_sub(1),
            _ => random.next() as u16,
        };
        self.tables(random, &lent, length)?;
        let mut lent = clean.clone();
        let user = random.below(usize::from(book.users) + 1).min(63);
        lent.head.lend()[7 + user / 16] ^= 1 << (user % 16);
        self.tables(random, &lent, length)?;

        // Something too short, for a sound book and for none.
        let mut lent = clean;
        shorter(random, &mut lent);
        self.tables(random, &lent, length)?;
        let mut lent = Lent::of(&generate::damage(random, book), Filler::any(random));
        shorter(random, &mut lent);
        self.tables(random, &lent, length)
    }
}

/// Three users, two folders, both layers in use: P1 to P5, in that mode.
pub fn sample(mode: Mode) -> Book {
    use fenstubble_reference::numbers::{Resource, User};
    let mut book = SoundBook::empty(mode);
    let all = usize::MAX;
    let done = (0..3)
        .try_for_each(|_| book.join(all).map(drop))
        .and_then(|()| book.insert(UserSet(3), all))
        .and_then(|_| book.insert(UserSet(3), all))
        .and_then(|_| book.grant(Resource(0), User(2), all))
        .and_then(|_| book.revoke(Resource(0), User(1), all));
    debug_assert!(done.is_ok());
    book.into_book()
}

/// The sample after two more people came, of whom one left, and user 2 too.
pub fn left(book: Book) -> Book {
    use fenstubble_reference::numbers::User;
    let mut book = SoundBook::new(book).expect("a sample");
    let all = usize::MAX;
    let done = (0..2)
        .try_for_each(|_| book.join(all).map(drop))
        .and_then(|()| book.leave(User(3), all))
        .and_then(|_| book.leave(User(2), all));
    debug_assert!(done.is_ok());
    book.into_book()
}

/// A random sound book: mostly small, and often one that no run of requests
/// reaches.
pub fn some_book(random: &mut Random) -> Book {
    let shape = match random.below(64) {
        0 => Shape::full(random),
        1..=3 => Shape::wide(random),
        4..=19 => return reached_book(random),
        _ => Shape::small(random),
    };
    generate::book(random, &shape)
}

/// A book that a run of requests reaches.
fn reached_book(random: &mut Random) -> Book {
    let mode = if random.chance(1, 2) {
        Mode::Delta
    } else {
        Mode::Full
    };
    let mut book = SoundBook::empty(mode);
    let users = random.between(1, 8);
    for _ in 0..random.below(60) {
        let request = generate::request(random, book.book(), users);
        // A refused one changes nothing.
        let _ = book.answer(&request, usize::MAX);
    }
    book.into_book()
}

/// Values at the edges of a count of the head: users, resources, inner
/// vertices, inner tokens, outer vertices, outer tokens.
fn head_values(book: &Book, field: usize) -> Vec<u16> {
    let limit = match field {
        0 => 64,
        1 => 256,
        2 => book.users + book.head().resources,
        3 | 5 => 4096,
        _ => book.users + 448,
    };
    let own = book.head();
    let now = [
        own.users,
        own.resources,
        own.inner_vertices,
        own.inner_tokens,
        own.outer_vertices,
        own.outer_tokens,
    ][field];
    let mut values = vec![0, 1, limit, limit + 1, now + 1, 255];
    values.extend(
        [limit.checked_sub(1), now.checked_sub(1)]
            .into_iter()
            .flatten(),
    );
    if field > 0 {
        values.extend([256, 320, 321, 512, 513, 32768, 65535]);
    }
    values
}

/// The bytes with that count in the head, alone and with rows cut off or
/// added, as zeros, so that the length is the one it asks for.
fn with_count(whole: &[u8], field: usize, value: u16) -> (Vec<u8>, Vec<u8>) {
    let mut alone = whole.to_vec();
    if field == 0 {
        alone[6] = value as u8;
        return (alone.clone(), alone);
    }
    let at = 5 + 2 * field;
    let before = u16::from_le_bytes([whole[at], whole[at + 1]]);
    alone[at..at + 2].copy_from_slice(&value.to_le_bytes());
    // Resources stand first in the head and last among the sections.
    let section = (field + 3) % 5;
    let width = WIDTHS[section];
    let mut end = version_in(whole).leavers().end;
    for (k, width) in WIDTHS.iter().enumerate().take(section + 1) {
        let field = (k + 1) % 5 + 1;
        let at = 5 + 2 * field;
        end += usize::from(u16::from_le_bytes([whole[at], whole[at + 1]])) * width;
    }
    let mut longer = alone.clone();
    if value < before {
        let gone = usize::from(before - value) * width;
        longer.drain(end - gone..end);
    } else {
        let more = usize::from(value - before) * width;
        longer.splice(end..end, std::iter::repeat_n(0, more));
    }
    (alone, longer)
}

/// Makes one table a byte or more too short, or the head a number.
pub fn shorter(random: &mut Random, lent: &mut Lent) {
    let k = random.below(6);
    if k == 5 {
        let numbers = if random.chance(2, 3) {
            Head::NUMBERS - 1
        } else {
            random.below(Head::NUMBERS)
        };
        lent.head = Memory::of(&lent.head.content()[..numbers]);
        return;
    }
    let most = LIMITS[k] * WIDTHS[k];
    let length = match random.below(4) {
        0 | 1 => most - 1,
        2 => most - WIDTHS[k],
        _ => random.below(most),
    };
    resize(&mut lent.tables[k], length);
}

/// Makes some tables and perhaps the head longer than they have to be.
pub fn longer(random: &mut Random, lent: &mut Lent) {
    for k in 0..5 {
        let more = random.below(3) * random.below(40);
        let length = lent.tables[k].len() + more;
        resize(&mut lent.tables[k], length);
    }
    let mut head = lent.head.content().to_vec();
    head.resize(Head::NUMBERS + random.below(4), 0xB2B2);
    lent.head = Memory::of(&head);
}

/// A table with that length; what is new holds one byte.
pub fn resize(table: &mut Memory<u8>, length: usize) {
    let mut content = table.content().to_vec();
    content.resize(length, 0xB2);
    *table = Memory::of(&content);
}

#[cfg(test)]
mod tests {
    use super::*;

    #[test]
    fn what_was_never_met() {
        // Of nothing: 13 numbers of two calls and 6 counts; in each version a
        // missing vertex, and the rows: S1 in 5 sections, S2 in 3, S3 to S6 in 2
        // each, S7 and S8 in one, each at three rows, but for the 3 where the
        // first can not be; in version 2 the leavers.
        let mut summary = Summary::default();
        let all = 26 + 6 + 2 * (1 + 3 * 18 - 3) + 1;
        assert_eq!(summary.never_met().len(), all);
        // One that is met is gone; a single row is the first and the last.
        let rule = Rule::S4;
        let at = At::Row(Section::InnerTokens, 0);
        summary.rows[1].count(Broken { rule, at }, [3, 1, 3, 0, 0]);
        let never = summary.never_met();
        assert_eq!(never.len(), all - 2);
        assert!(never.contains(&"version 2, S4, inner tokens, between".into()));
        assert!(never.contains(&"version 1, S4, inner tokens, first row".into()));
        for (at, left) in [(At::Missing, 1), (At::Leavers, 2)] {
            summary.rows[1].count(Broken { rule, at }, [0; 5]);
            assert_eq!(summary.never_met().len(), never.len() - left);
        }
        summary.tally.count(Call::Read, 33);
        summary.counts[2] += 1;
        assert_eq!(summary.never_met().len(), never.len() - 4);
    }

    #[test]
    fn counts_in_place() {
        let base = sample(Mode::Delta);
        assert_eq!(base.head().counts(), [4, 3, 5, 4, 2]);
        for (version, start) in Version::ALL.into_iter().zip([17, 25]) {
            let whole = bytes::write_as(&base, version);
            // A count more or less, with its length: only the count's own
            // section grows or shrinks, by zeros or from its end.
            for field in 1..6 {
                let section = (field + 3) % 5;
                for value in 0..9 {
                    let (alone, longer) = with_count(&whole, field, value);
                    assert_eq!(alone.len(), whole.len());
                    let mut counts = base.head().counts();
                    counts[section] = usize::from(value);
                    let length: usize = (0..5).map(|k| counts[k] * WIDTHS[k]).sum();
                    assert_eq!(longer.len(), start + length, "{field} {value}");
                    let same = base.head().counts()[section] == usize::from(value);
                    assert_eq!(longer == whole, same);
                }
            }
            // One resource less is still a book.
            assert!(bytes::read(&with_count(&whole, 1, 1).1).is_ok());
        }
        // A length of which 16 bits say that it is the sample's.
        assert!(LENGTHS.contains(&(65_536 + bytes::write(&base).len())));
    }

    #[test]
    fn the_sample_with_leavers() {
        for mode in [Mode::Delta, Mode::Full] {
            let book = left(sample(mode));
            assert_eq!((book.users, book.leavers), (5, UserSet(12)));
            assert!(SoundBook::new(book).is_ok());
        }
    }
}
