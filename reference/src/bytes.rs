//! The book as bytes, its five sections, and what is wrong with bytes that are
//! no book.

use std::ops::Range;

use crate::book::{
    Book, Head, InnerToken, Mode, OuterToken, ResourceRow, SoundBook, MAX_INNER_TOKENS,
    MAX_INNER_VERTICES, MAX_OUTER_TOKENS, MAX_OUTER_VERTICES, MAX_RESOURCES, NO_OUTER_KEY,
};
use crate::fault::Fault;
use crate::numbers::{InnerVertex, OuterVertex};
use crate::refusal::Refusal;
use crate::sets::UserSet;
use crate::sound::{first_broken, first_over, limited, At};

/// The mark at the start of a book.
pub const MARK: [u8; 3] = [0x54, 0x4B, 0x42];
/// Where the version starts.
pub const VERSION_PLACE: usize = 3;
/// Where the mode stands.
pub const MODE_PLACE: usize = 5;
/// Where the counts start: users, resources, inner vertices, inner tokens,
/// outer vertices, outer tokens.
pub const COUNT_PLACES: [usize; 6] = [6, 7, 9, 11, 13, 15];
/// Bytes of the header.
pub const HEAD_LENGTH: usize = 17;
/// Where the set of leavers stands, in a version that has it.
pub const LEAVERS_PLACE: usize = HEAD_LENGTH;
/// What is told for the place of a vertex that is missing.
pub const NO_PLACE: usize = 65535;
/// Bytes of a row in each section: inner vertices, inner tokens, outer
/// vertices, outer tokens, resources.
pub const WIDTHS: [usize; 5] = [8, 5, 8, 4, 12];
/// Most rows of each section.
pub const LIMITS: [usize; 5] = [
    MAX_INNER_VERTICES,
    MAX_INNER_TOKENS,
    MAX_OUTER_VERTICES,
    MAX_OUTER_TOKENS,
    MAX_RESOURCES,
];
/// Bytes of the largest book.
pub const LARGEST: usize = 46_617;

/// A version of the bytes.
#[derive(Clone, Copy, Debug, PartialEq, Eq)]
pub enum Version {
    /// 1, which is read only: without a set of leavers, so nobody has left.
    One,
    /// 2, which is read and written.
    Two,
}

impl Version {
    /// Both.
    pub const ALL: [Version; 2] = [Version::One, Version::Two];

    /// Its number.
    pub fn number(self) -> u16 {
        match self {
            Version::One => 1,
            Version::Two => 2,
        }
    }

    /// The version with that number.
    pub fn of(number: u16) -> Option<Version> {
        let mut all = Version::ALL.into_iter();
        all.find(|version| version.number() == number)
    }

    /// Where the set of leavers stands; it is empty in a version without one.
    pub fn leavers(self) -> Range<usize> {
        match self {
            Version::One => LEAVERS_PLACE..LEAVERS_PLACE,
            Version::Two => LEAVERS_PLACE..LEAVERS_PLACE + UserSet::WIDTH,
        }
    }
}

/// A row of a table as bytes, little-endian.
pub trait Row: Sized {
    /// Its bytes.
    const WIDTH: usize;
    /// Reads it from exactly so many bytes.
    fn read(bytes: &[u8]) -> Self;
    /// Writes it to exactly so many bytes.
    fn write(&self, bytes: &mut [u8]);
}

fn read_16(bytes: &[u8], at: usize) -> u16 {
    u16::from_le_bytes([bytes[at], bytes[at + 1]])
}

fn read_set(bytes: &[u8]) -> UserSet {
    let mut eight = [0; 8];
    eight.copy_from_slice(&bytes[..8]);
    UserSet(u64::from_le_bytes(eight))
}

impl Row for UserSet {
    const WIDTH: usize = 8;

    fn read(bytes: &[u8]) -> UserSet {
        read_set(bytes)
    }

    fn write(&self, bytes: &mut [u8]) {
        bytes.copy_from_slice(&self.0.to_le_bytes());
    }
}

impl Row for InnerToken {
    const WIDTH: usize = 5;

    fn read(bytes: &[u8]) -> InnerToken {
        InnerToken {
            from: InnerVertex(read_16(bytes, 0)),
            to: InnerVertex(read_16(bytes, 2)),
            kind: bytes[4],
        }
    }

    fn write(&self, bytes: &mut [u8]) {
        bytes[..2].copy_from_slice(&self.from.0.to_le_bytes());
        bytes[2..4].copy_from_slice(&self.to.0.to_le_bytes());
        bytes[4] = self.kind;
    }
}

impl Row for OuterToken {
    const WIDTH: usize = 4;

    fn read(bytes: &[u8]) -> OuterToken {
        OuterToken {
            from: OuterVertex(read_16(bytes, 0)),
            to: OuterVertex(read_16(bytes, 2)),
        }
    }

    fn write(&self, bytes: &mut [u8]) {
        bytes[..2].copy_from_slice(&self.from.0.to_le_bytes());
        bytes[2..].copy_from_slice(&self.to.0.to_le_bytes());
    }
}

impl Row for ResourceRow {
    const WIDTH: usize = 12;

    fn read(bytes: &[u8]) -> ResourceRow {
        let outer = read_16(bytes, 10);
        ResourceRow {
            list: read_set(bytes),
            inner: InnerVertex(read_16(bytes, 8)),
            outer: (outer != NO_OUTER_KEY).then_some(OuterVertex(outer)),
        }
    }

    fn write(&self, bytes: &mut [u8]) {
        bytes[..8].copy_from_slice(&self.list.0.to_le_bytes());
        bytes[8..10].copy_from_slice(&self.inner.0.to_le_bytes());
        let outer = self.outer.map_or(NO_OUTER_KEY, |vertex| vertex.0);
        bytes[10..].copy_from_slice(&outer.to_le_bytes());
    }
}

/// Reads rows from their bytes; a trailing incomplete row does not count.
pub fn read_rows<R: Row>(bytes: &[u8]) -> Vec<R> {
    bytes.chunks_exact(R::WIDTH).map(R::read).collect()
}

/// Writes rows from the start of the bytes on; those after are not touched.
pub fn write_rows<R: Row>(rows: &[R], bytes: &mut [u8]) {
    for (row, place) in rows.iter().zip(bytes.chunks_exact_mut(R::WIDTH)) {
        row.write(place);
    }
}

/// Where the five sections of a book with that head stand in its bytes.
pub fn sections(head: &Head, version: Version) -> [Range<usize>; 5] {
    let counts = head.counts();
    let mut start = version.leavers().end;
    std::array::from_fn(|k| {
        let end = start + counts[k] * WIDTHS[k];
        let section = start..end;
        start = end;
        section
    })
}

/// The length of a book with that head.
pub fn length(head: &Head, version: Version) -> usize {
    sections(head, version)[4].end
}

/// Reads the version and the head: of bytes with the mark and a version that
/// there is, with a possible mode, possible counts, and exactly the length
/// these ask for.
pub fn read_head(bytes: &[u8]) -> Result<(Version, Head), Fault> {
    let found = bytes.len();
    if found < HEAD_LENGTH {
        let asked = None;
        return Err(Fault::Length { found, asked });
    }
    if bytes[..3] != MARK {
        return Err(Fault::Mark);
    }
    let number = read_16(bytes, VERSION_PLACE);
    let version = Version::of(number).ok_or(Fault::Version(number))?;
    let mode = u16::from(bytes[MODE_PLACE]);
    if Mode::of(mode).is_none() {
        return Err(Fault::Mode(mode));
    }
    // Here the length is judged by the header of the version. Both versions
    // have the header that was asked for above.
    let mut head = Head {
        mode,
        users: u16::from(bytes[6]),
        leavers: UserSet::EMPTY,
        resources: read_16(bytes, 7),
        inner_vertices: read_16(bytes, 9),
        inner_tokens: read_16(bytes, 11),
        outer_vertices: read_16(bytes, 13),
        outer_tokens: read_16(bytes, 15),
    };
    if let Some(count) = first_over(&head) {
        let limited = limited(&head)[count];
        let place = COUNT_PLACES[count];
        return Err(Fault::Count { limited, place });
    }
    let asked = length(&head, version);
    if found != asked {
        let asked = Some(asked);
        return Err(Fault::Length { found, asked });
    }
    let set = &bytes[version.leavers()];
    if !set.is_empty() {
        head.leavers = UserSet::read(set);
    }
    Ok((version, head))
}

/// Where in the bytes of a book with that head a rule is broken.
fn place(head: &Head, version: Version, at: At) -> usize {
    match at {
        At::Leavers => LEAVERS_PLACE,
        At::Row(section, row) => {
            let k = section.number();
            sections(head, version)[k].start + row * WIDTHS[k]
        }
        At::Missing => NO_PLACE,
    }
}

/// Reads a sound book, or tells the first thing that is wrong with the bytes.
pub fn read(bytes: &[u8]) -> Result<SoundBook, Fault> {
    let (version, head) = read_head(bytes)?;
    let [inner_vertices, inner_tokens, outer_vertices, outer_tokens, resources] =
        sections(&head, version);
    let book = Book {
        mode: head.mode,
        users: head.users,
        leavers: head.leavers,
        inner_vertices: read_rows(&bytes[inner_vertices]),
        inner_tokens: read_rows(&bytes[inner_tokens]),
        outer_vertices: read_rows(&bytes[outer_vertices]),
        outer_tokens: read_rows(&bytes[outer_tokens]),
        resources: read_rows(&bytes[resources]),
    };
    match first_broken(&book) {
        Some(broken) => {
            let place = place(&head, version, broken.at);
            Err(Fault::Broken { broken, place })
        }
        None => Ok(SoundBook(book)),
    }
}

/// The book as bytes. Any book whose numbers fit can be written this way,
/// also an unsound one; the lent face writes sound ones only.
pub fn write(book: &Book) -> Vec<u8> {
    write_as(book, Version::Two)
}

/// The book as bytes of that version. Of version 1 there are old books only;
/// it can not say who has left.
pub fn write_as(book: &Book, version: Version) -> Vec<u8> {
    let head = book.head();
    let mut bytes = vec![0; length(&head, version)];
    bytes[..3].copy_from_slice(&MARK);
    bytes[3..5].copy_from_slice(&version.number().to_le_bytes());
    bytes[5] = head.mode as u8;
    bytes[6] = head.users as u8;
    let counts = [
        head.resources,
        head.inner_vertices,
        head.inner_tokens,
        head.outer_vertices,
        head.outer_tokens,
    ];
    for (count, place) in counts.iter().zip(bytes[7..17].chunks_exact_mut(2)) {
        place.copy_from_slice(&count.to_le_bytes());
    }
    write_rows(&[book.leavers], &mut bytes[version.leavers()]);
    let [inner_vertices, inner_tokens, outer_vertices, outer_tokens, resources] =
        sections(&head, version);
    write_rows(&book.inner_vertices, &mut bytes[inner_vertices]);
    write_rows(&book.inner_tokens, &mut bytes[inner_tokens]);
    write_rows(&book.outer_vertices, &mut bytes[outer_vertices]);
    write_rows(&book.outer_tokens, &mut bytes[outer_tokens]);
    write_rows(&book.resources, &mut bytes[resources]);
    bytes
}

/// The stretch of a sound book's bytes that is its section `k`. Refusals: what
/// is wrong with the bytes, then 1.
pub fn section(bytes: &[u8], k: u16) -> Result<&[u8], Refusal> {
    read(bytes)?;
    let (version, head) = read_head(bytes)?;
    let stretch = sections(&head, version)
        .get(usize::from(k))
        .cloned()
        .ok_or(Refusal::NOT_THERE)?;
    Ok(&bytes[stretch])
}
