//! Smaller cases that still differ: fewer rows, fewer users, fewer bytes.

use std::cell::Cell as Counter;
use std::fmt;

use fenstubble_reference::book::{Book, Head, Mode, ResourceRow};
use fenstubble_reference::bytes::{
    self, read_rows, Version, HEAD_LENGTH, LIMITS, MODE_PLACE, VERSION_PLACE, WIDTHS,
};
use fenstubble_reference::numbers::{InnerVertex, OuterVertex, User};
use fenstubble_reference::sets::UserSet;

use crate::compare::{compare, numbers_needed, Difference};
use crate::memory::{Lent, Memory, TABLES};
use crate::side::{Call, SET};

/// How many smaller cases are tried at most.
const TRIES: usize = 4000;

/// A call and what it is lent.
#[derive(Clone, Debug)]
pub struct Case {
    /// The call.
    pub call: Call,
    /// What it is lent.
    pub lent: Lent,
}

impl Case {
    /// What differs between the two sides, if anything.
    pub fn difference(&self) -> Option<Difference> {
        compare(self.call, &self.lent).err()
    }

    /// Whether the two sides differ with these answers.
    pub fn differs(&self, numbers: [Option<u8>; 2]) -> bool {
        self.difference()
            .is_some_and(|difference| difference.numbers == numbers)
    }

    /// The smallest case found that still differs, with the same answers.
    pub fn smallest(self, numbers: [Option<u8>; 2]) -> Case {
        let tries = Counter::new(TRIES);
        let differs = |case: &Case| {
            tries.set(tries.get().saturating_sub(1));
            tries.get() > 0 && case.differs(numbers)
        };
        let plain = self.with_plain_lengths();
        let mut case = if differs(&plain) { plain } else { self };
        if case.call == Call::Serve {
            let rows: Vec<&[u64]> = case.lent.requests.content().chunks(3).collect();
            let rows = fewer(&rows, |rows| differs(&case.with_requests(&rows.concat())));
            case = case.with_requests(&rows.concat());
        }
        match case.call {
            Call::Section(_) | Call::Read => {
                let given = case.lent.book.content();
                let bytes = smallest_bytes(given, |bytes| differs(&case.with_bytes(bytes)));
                case.with_bytes(&bytes)
            }
            _ => match case.lent.book_in_tables() {
                Some(book) => {
                    let book = smallest_book(book, |book| differs(&case.with_book(book)));
                    case.with_book(&book)
                }
                None => case,
            },
        }
    }

    /// The same call with nothing lent that is longer than it has to be.
    fn with_plain_lengths(&self) -> Case {
        let mut case = self.clone();
        let numbers = self.lent.head.len().min(Head::NUMBERS);
        case.lent.head = Memory::of(&self.lent.head.content()[..numbers]);
        for (k, table) in case.lent.tables.iter_mut().enumerate() {
            let length = table.len().min(LIMITS[k] * WIDTHS[k]);
            *table = Memory::of(&table.content()[..length]);
        }
        if let Call::Insert(list, length) = self.call {
            case.call = Call::Insert(list, length.min(SET));
        }
        case
    }

    /// The same call with other request rows.
    fn with_requests(&self, rows: &[u64]) -> Case {
        let mut case = self.clone();
        case.lent.requests = Memory::of(rows);
        case
    }

    /// The same call on other bytes.
    fn with_bytes(&self, bytes: &[u8]) -> Case {
        let mut case = self.clone();
        case.lent.book = Memory::of(bytes);
        case
    }

    /// The same call on the tables of another book.
    fn with_book(&self, book: &Book) -> Case {
        self.moved(self.call, book)
    }

    /// A call of the same kind on the tables of another book, with as much
    /// more or less for the answer than it needs as before.
    pub fn moved(&self, call: Call, book: &Book) -> Case {
        let mut case = self.clone();
        let before = self.needed();
        case.call = call;
        case.lent.put(book);
        let after = case.needed();
        let length = |given: usize| (given + after).saturating_sub(before);
        match self.call {
            Call::Write => {
                case.lent.buffer = Memory::of(&vec![0x6D; length(self.lent.buffer.len())]);
            }
            _ => case.lent.list = Memory::of(&vec![0x6D6D; length(self.lent.list.len())]),
        }
        case
    }

    /// How long a buffer or list the answer needs; 0 for a refused call.
    fn needed(&self) -> usize {
        match self.call {
            Call::Write => self
                .lent
                .book_in_tables()
                .map_or(0, |book| bytes::length(&book.head(), Version::Two)),
            _ => numbers_needed(self.call, &self.lent),
        }
    }
}

impl fmt::Display for Case {
    fn fmt(&self, f: &mut fmt::Formatter<'_>) -> fmt::Result {
        writeln!(f, "{}", self.call)?;
        let lent = &self.lent;
        if matches!(self.call, Call::Section(_) | Call::Read) {
            write!(f, "{}", Shown(lent.book.content()))?;
        }
        if matches!(self.call, Call::Section(_)) {
            return Ok(());
        }
        if lent.head.len() != Head::NUMBERS {
            writeln!(f, "a head of {} numbers", lent.head.len())?;
        }
        for (k, name) in TABLES.iter().enumerate() {
            if lent.tables[k].len() != LIMITS[k] * WIDTHS[k] {
                writeln!(f, "a table of {} bytes: {name}", lent.tables[k].len())?;
            }
        }
        match self.call {
            Call::Insert(_, length) if length != SET => {
                writeln!(f, "a set lent as {length} bytes")?;
            }
            _ => {}
        }
        match self.call {
            Call::Read => return Ok(()),
            Call::Write => writeln!(f, "a buffer of {} bytes", lent.buffer.len())?,
            Call::Check => {}
            Call::View(..) => {}
            _ => writeln!(f, "a list of {} numbers", lent.list.len())?,
        }
        if self.call == Call::Serve {
            let requests = lent.requests.content();
            writeln!(
                f,
                "{} answer numbers, the requests {requests:?}",
                lent.answers.len()
            )?;
        }
        writeln!(f, "the head {:?}", lent.head.content())?;
        if let Some(book) = lent.book_in_tables() {
            write_book(f, &book)?;
            if book.mode < 256 && book.users < 256 {
                write_bytes(f, "as bytes", &bytes::write(&book))?;
            }
        }
        Ok(())
    }
}

/// A book's bytes for the eye, and their rows if there are as many as the head
/// says.
#[derive(Clone, Copy, Debug)]
pub struct Shown<'a>(pub &'a [u8]);

impl fmt::Display for Shown<'_> {
    fn fmt(&self, f: &mut fmt::Formatter<'_>) -> fmt::Result {
        write_bytes(f, "a book", self.0)?;
        match Loose::of(self.0) {
            Some(loose) => write_book(f, &loose.book),
            None => Ok(()),
        }
    }
}

fn write_bytes(f: &mut fmt::Formatter<'_>, name: &str, bytes: &[u8]) -> fmt::Result {
    write!(f, "{name}, {} bytes: ", bytes.len())?;
    for byte in bytes.iter().take(2048) {
        write!(f, "{byte:02x}")?;
    }
    writeln!(f, "{}", if bytes.len() > 2048 { " .." } else { "" })
}

/// The tables in the short form of a few lines.
fn write_book(f: &mut fmt::Formatter<'_>, book: &Book) -> fmt::Result {
    const MOST: usize = 64;
    let row = |f: &mut fmt::Formatter<'_>, name: &str, rows: Vec<String>| {
        let more = if rows.len() > MOST { " .." } else { "" };
        writeln!(
            f,
            "{name} ({}): {}{more}",
            rows.len(),
            rows[..rows.len().min(MOST)].join(" ")
        )
    };
    let set = |set: &UserSet| {
        let users: Vec<String> = set.users().map(|user| user.0.to_string()).collect();
        format!("{{{}}}", users.join(","))
    };
    let (mode, users, leavers) = (book.mode, book.users, set(&book.leavers));
    writeln!(f, "mode {mode}, {users} users, leavers {leavers}")?;
    row(f, TABLES[0], book.inner_vertices.iter().map(set).collect())?;
    let tokens = book.inner_tokens.iter();
    let tokens = tokens.map(|token| format!("{}>{}:{}", token.from.0, token.to.0, token.kind));
    row(f, TABLES[1], tokens.collect())?;
    row(f, TABLES[2], book.outer_vertices.iter().map(set).collect())?;
    let tokens = book.outer_tokens.iter();
    let tokens = tokens.map(|token| format!("{}>{}", token.from.0, token.to.0));
    row(f, TABLES[3], tokens.collect())?;
    let resources = book.resources.iter().map(|row| {
        let outer = row.outer.map_or("none".into(), |outer| outer.0.to_string());
        format!("{}:{}:{outer}", set(&row.list), row.inner.0)
    });
    row(f, TABLES[4], resources.collect())
}

/// The version that the bytes are taken for, of which there are enough for a
/// header: the one that is written, unless they say that they are old.
pub(crate) fn version_in(bytes: &[u8]) -> Version {
    let number = u16::from_le_bytes([bytes[VERSION_PLACE], bytes[VERSION_PLACE + 1]]);
    Version::of(number).unwrap_or(Version::Two)
}

/// The head in the bytes, of which there are enough for a header, whatever else
/// they are. Nobody has left where the set of leavers is not whole.
pub(crate) fn head_in(bytes: &[u8]) -> Head {
    let number = |at: usize| u16::from_le_bytes([bytes[at], bytes[at + 1]]);
    let set = bytes.get(version_in(bytes).leavers());
    let leavers = set
        .map(read_rows)
        .and_then(|sets: Vec<_>| sets.first().copied());
    Head {
        mode: u16::from(bytes[5]),
        users: u16::from(bytes[6]),
        leavers: leavers.unwrap_or_default(),
        resources: number(7),
        inner_vertices: number(9),
        inner_tokens: number(11),
        outer_vertices: number(13),
        outer_tokens: number(15),
    }
}

/// Bytes that are at least a head and the rows it asks for.
#[derive(Clone, Debug)]
pub(crate) struct Loose {
    /// The bytes before the mode.
    mark: [u8; MODE_PLACE],
    /// What they are taken for.
    version: Version,
    /// The book, sound or not.
    pub(crate) book: Book,
    /// What comes after the rows.
    tail: Vec<u8>,
}

impl Loose {
    /// Those of a head and its rows, if there are so many bytes.
    pub(crate) fn of(bytes: &[u8]) -> Option<Loose> {
        if bytes.len() < HEAD_LENGTH {
            return None;
        }
        let head = head_in(bytes);
        let version = version_in(bytes);
        let sections = bytes::sections(&head, version);
        let part = |k: usize| bytes.get(sections[k].clone());
        Some(Loose {
            mark: bytes[..MODE_PLACE].try_into().ok()?,
            version,
            book: Book {
                mode: head.mode,
                users: head.users,
                leavers: head.leavers,
                inner_vertices: read_rows(part(0)?),
                inner_tokens: read_rows(part(1)?),
                outer_vertices: read_rows(part(2)?),
                outer_tokens: read_rows(part(3)?),
                resources: read_rows(part(4)?),
            },
            tail: bytes[sections[4].end..].to_vec(),
        })
    }

    /// Whether there is anything after the rows.
    #[cfg(feature = "self-test")]
    pub(crate) fn has_tail(&self) -> bool {
        !self.tail.is_empty()
    }

    fn bytes(&self) -> Vec<u8> {
        let mut bytes = bytes::write_as(&self.book, self.version);
        bytes[..MODE_PLACE].copy_from_slice(&self.mark);
        bytes.extend_from_slice(&self.tail);
        bytes
    }
}

/// The smallest bytes found that still differ: fewer behind the rows, then
/// fewer rows and users; or fewer of any, where there is no head with its rows.
pub fn smallest_bytes(given: &[u8], differs: impl Fn(&[u8]) -> bool) -> Vec<u8> {
    let Some(loose) = Loose::of(given) else {
        return fewer(given, differs);
    };
    let with_tail = |tail: &[u8]| Loose {
        tail: tail.to_vec(),
        ..loose.clone()
    };
    let loose = with_tail(&fewer(&loose.tail, |tail| {
        differs(&with_tail(tail).bytes())
    }));
    let with_book = |book: &Book| Loose {
        book: book.clone(),
        ..loose.clone()
    };
    let book = smallest_book(loose.book.clone(), |book| differs(&with_book(book).bytes()));
    with_book(&book).bytes()
}

/// As few of these as found that still differ: parts are left out, long ones
/// first.
pub fn fewer<T: Clone>(all: &[T], differs: impl Fn(&[T]) -> bool) -> Vec<T> {
    let mut left = all.to_vec();
    let mut part = left.len().div_ceil(2);
    while part > 0 {
        let mut at = 0;
        while at < left.len() {
            let mut without = left.clone();
            without.drain(at..(at + part).min(left.len()));
            if differs(&without) {
                left = without;
            } else {
                at += part;
            }
        }
        part /= 2;
    }
    left
}

/// The smallest book found that still differs: resources become one user's
/// alone, rows, users and leavers are left out, many at once first, as long as
/// that succeeds.
pub fn smallest_book(mut book: Book, differs: impl Fn(&Book) -> bool) -> Book {
    loop {
        let before = size(&book);
        for place in 0..book.resources.len() {
            if let Some(plain) = with_plain_resource(&book, place) {
                if differs(&plain) {
                    book = plain;
                }
            }
        }
        for part in [0, 2, 1, 3, 4] {
            let rows: Vec<usize> = (0..count(&book, part)).collect();
            let kept = fewer(&rows, |kept| differs(&with_rows(&book, part, kept)));
            book = with_rows(&book, part, &kept);
        }
        for user in book.leavers.users() {
            let mut back = book.clone();
            back.leavers = back.leavers.without(user);
            if differs(&back) {
                book = back;
            }
        }
        for user in (0..book.users.min(64)).rev() {
            let without = without_user(&book, User(user));
            if differs(&without) {
                book = without;
            }
        }
        if size(&book) == before {
            return book;
        }
    }
}

fn count(book: &Book, part: usize) -> usize {
    book.head().counts()[part]
}

fn size(book: &Book) -> usize {
    let leavers = book.leavers.size() as usize;
    book.head().counts().iter().sum::<usize>() + usize::from(book.users) + leavers
}

/// The book with these rows of one table alone. Without a vertex go its
/// tokens and the resources that use it; the numbers of others move up.
fn with_rows(book: &Book, part: usize, kept: &[usize]) -> Book {
    fn only<T: Clone>(rows: &[T], kept: &[usize]) -> Vec<T> {
        kept.iter().map(|&row| rows[row].clone()).collect()
    }
    // Numbers that are those of no vertex stay; one that is left out has no
    // new number.
    let moved = |number: u16, count: usize| {
        let number = usize::from(number);
        if number >= count {
            return Some(number);
        }
        kept.binary_search(&number).ok()
    };
    let mut book = book.clone();
    match part {
        0 => {
            let vertices = book.inner_vertices.len();
            let vertex = |v: &mut InnerVertex| {
                moved(v.0, vertices).map(|number| *v = InnerVertex::at(number))
            };
            book.inner_vertices = only(&book.inner_vertices, kept);
            book.inner_tokens.retain_mut(|token| {
                vertex(&mut token.from).is_some() && vertex(&mut token.to).is_some()
            });
            book.resources
                .retain_mut(|row| vertex(&mut row.inner).is_some());
        }
        1 => book.inner_tokens = only(&book.inner_tokens, kept),
        2 => {
            let vertices = book.outer_vertices.len();
            let vertex = |v: &mut OuterVertex| {
                moved(v.0, vertices).map(|number| *v = OuterVertex::at(number))
            };
            book.outer_vertices = only(&book.outer_vertices, kept);
            book.outer_tokens.retain_mut(|token| {
                vertex(&mut token.from).is_some() && vertex(&mut token.to).is_some()
            });
            book.resources.retain_mut(|row| match &mut row.outer {
                Some(outer) => vertex(outer).is_some(),
                None => true,
            });
        }
        3 => book.outer_tokens = only(&book.outer_tokens, kept),
        _ => book.resources = only(&book.resources, kept),
    }
    book
}

/// The book with a resource that is the first user's alone; none if it is.
fn with_plain_resource(book: &Book, place: usize) -> Option<Book> {
    let user = User(0);
    let plain = ResourceRow {
        list: UserSet::alone(user),
        inner: book.own_inner_vertex(user)?,
        outer: match Mode::of(book.mode) {
            Some(Mode::Full) => Some(book.own_outer_vertex(user)?),
            _ => None,
        },
    };
    let mut book = book.clone();
    let row = book.resources.get_mut(place)?;
    (*row != plain).then(|| *row = plain)?;
    Some(book)
}

/// The book without a user and their own vertices; the numbers of users
/// above move up.
fn without_user(book: &Book, user: User) -> Book {
    let own = UserSet::alone(user);
    let others = |sets: &[UserSet]| -> Vec<usize> {
        (0..sets.len()).filter(|&row| sets[row] != own).collect()
    };
    let below = own.0.wrapping_sub(1);
    let moved = |set: UserSet| UserSet(set.0 & below | set.0 >> 1 & !below);
    let mut book = with_rows(book, 0, &others(&book.inner_vertices));
    book = with_rows(&book, 2, &others(&book.outer_vertices));
    book.users -= 1;
    for set in book
        .inner_vertices
        .iter_mut()
        .chain(&mut book.outer_vertices)
    {
        *set = moved(*set);
    }
    for row in &mut book.resources {
        row.list = moved(row.list);
    }
    book.leavers = moved(book.leavers);
    book
}

#[cfg(test)]
mod tests {
    use super::*;
    use fenstubble_reference::generate::{self, Random, Shape};
    use fenstubble_reference::sound::sound;

    #[test]
    fn sound_books_get_small() {
        let mut random = Random::new(4);
        for _ in 0..20 {
            let shape = Shape {
                resources: 8,
                inner_groups: 5,
                ..Shape::small(&mut random)
            };
            let book = generate::book(&mut random, &shape);
            if book.resources.is_empty() {
                continue;
            }
            // A sound book with a resource is left one, and one user.
            let small = smallest_book(book, |book| {
                sound(book).is_ok() && !book.resources.is_empty()
            });
            assert_eq!(small.resources.len(), 1, "{small:?}");
            assert!(small.users <= 2 && size(&small) <= 12, "{small:?}");
        }
    }

    #[test]
    fn loose_bytes() {
        let mut random = Random::new(5);
        let shape = Shape::small(&mut random);
        let book = generate::book(&mut random, &shape);
        for version in Version::ALL {
            let mut bytes = bytes::write_as(&book, version);
            bytes[0] = 9;
            bytes.extend([1, 2]);
            let loose = Loose::of(&bytes).unwrap();
            assert_eq!(loose.bytes(), bytes);
            let mut same = book.clone();
            if version == Version::One {
                same.leavers = UserSet::EMPTY;
            }
            assert_eq!((loose.book, loose.tail), (same, vec![1, 2]));
            assert!(Loose::of(&bytes[..16]).is_none());
        }
    }
}
