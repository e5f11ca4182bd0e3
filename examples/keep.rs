//! Keeps a small book in memory through the C interface, fenstubble.h: three
//! people, two folders, a grant, a revoke; then to a file and back; and
//! somebody leaves.
//!
//!     rustc --edition 2021 -L PREFIX/lib keep.rs && ./keep book.tkb
//!
//! The engine decides, the host obeys. This host has no keys and no ciphers:
//! it says each order in words. It ends with status 1 if a call answers
//! anything but what is expected of it here.

use std::path::Path;
use std::process::ExitCode;
use std::{env, fs};

/// Declares calls of fenstubble.h: all but `version` and `section` have the
/// head and the five tables among their arguments, each as pointer and length.
/// What the header lends as `const` is a `*mut` here; the call only reads it.
macro_rules! calls {
    ($(fn $name:ident($($before:ident: $b:ty),*; head, tables; $($after:ident: $a:ty),*);)*) => {
        #[link(name = "fenstubble")]
        extern "C" {
            fn fenstubble_version() -> u32;
            $(fn $name(
                $($before: $b,)*
                head: *mut u16, head_len: usize,
                inner_vertices: *mut u8, inner_vertices_len: usize,
                inner_tokens: *mut u8, inner_tokens_len: usize,
                outer_vertices: *mut u8, outer_vertices_len: usize,
                outer_tokens: *mut u8, outer_tokens_len: usize,
                resources: *mut u8, resources_len: usize,
                $($after: $a),*
            ) -> u16;)*
        }
    };
}

calls! {
    fn fenstubble_check(; head, tables;);
    fn fenstubble_read(book: *const u8, book_len: usize; head, tables; place: *mut usize);
    fn fenstubble_write(; head, tables; buffer: *mut u8, buffer_len: usize, length: *mut usize);
    fn fenstubble_join(; head, tables; orders: *mut u16, orders_len: usize, count: *mut u16);
    fn fenstubble_insert(; head, tables; orders: *mut u16, orders_len: usize, count: *mut u16, list: *const u8, list_len: usize);
    fn fenstubble_grant(; head, tables; orders: *mut u16, orders_len: usize, count: *mut u16, resource: u16, user: u16);
    fn fenstubble_revoke(; head, tables; orders: *mut u16, orders_len: usize, count: *mut u16, resource: u16, user: u16);
    fn fenstubble_leave(; head, tables; orders: *mut u16, orders_len: usize, count: *mut u16, user: u16);
    fn fenstubble_open(; head, tables; user: u16, resource: u16, list: *mut u16, list_len: usize, inner: *mut u16, outer: *mut u16);
}

// The header's numbers, without their FENSTUBBLE_.
const VERSION: u32 = 40000;
const HEAD_LEN: usize = 11;
const HEAD_LEAVERS: usize = 7;
const INNER_VERTICES_BYTES: usize = 320 * 8;
const INNER_TOKENS_BYTES: usize = 4096 * 5;
const OUTER_VERTICES_BYTES: usize = 512 * 8;
const OUTER_TOKENS_BYTES: usize = 4096 * 4;
const RESOURCES_BYTES: usize = 256 * 12;
const SET_BYTES: usize = 8;
const BOOK_HEADER: usize = 17;
const BOOK_ROWS: usize = 25;
const BOOK_BYTES: usize = 46_617;
const ORDER_ROWS: usize = 4608;
const OPEN_ROWS: usize = 126;
const MODE_DELTA: u16 = 1;
const NO_OUTER: u16 = 65535;
const NO_ROW: usize = 65535;
const NO_SUCH: u16 = 1;
const NOT_LISTED: u16 = 6;
const CLOSED: u16 = 11;
const HAS_LEFT: u16 = 15;
const BROKEN_S1: u16 = 31;
const BROKEN_S7: u16 = 37;

/// The header's words for bytes that are no sound book.
#[rustfmt::skip]
const REASONS: [(u16, &str); 13] = [
    (20, "the bytes do not begin with the mark of a book, TKB"),
    (21, "the book's version is neither 1 nor 2"),
    (22, "the book's mode is neither 0 nor 1"),
    (23, "a count in the book's header is over its limit"),
    (24, "the length is not what the book's version and counts ask for"),
    (31, "S1 is broken: a kind above 1, a vertex that is not there, a set with a user who has not joined, or a list with one who has left"),
    (32, "S2 is broken: a user has no own vertex, a token that is not of kind 1 leads to one, or an inner vertex has the empty set"),
    (33, "S3 is broken: an earlier vertex of the layer has the same set"),
    (34, "S4 is broken: the set where the token starts is empty, or no proper part of the set that it leads to"),
    (35, "S5 is broken: the group's set is not made of the sets from which tokens lead to it, those of kind 1 apart"),
    (36, "S6 is broken: the access token starts at no user's own vertex, or leads to a set with that user, or the token is there twice"),
    (37, "S7 is broken: the folder's list names a user who does not derive its inner key"),
    (38, "S8 is broken: the folder's outer lock is not what its mode and its list ask for"),
];

/// The sections of a book's bytes: what a row is, where the header counts the
/// rows, and how many bytes a row has.
const SECTIONS: [(&str, usize, usize); 5] = [
    ("inner vertex", 9, 8),
    ("inner token", 11, 5),
    ("outer vertex", 13, 8),
    ("outer token", 15, 4),
    ("folder", 7, 12),
];

/// A book: a head and five tables, all of them ours.
struct Book {
    head: [u16; HEAD_LEN],
    inner_vertices: [u8; INNER_VERTICES_BYTES],
    inner_tokens: [u8; INNER_TOKENS_BYTES],
    outer_vertices: [u8; OUTER_VERTICES_BYTES],
    outer_tokens: [u8; OUTER_TOKENS_BYTES],
    resources: [u8; RESOURCES_BYTES],
}

/// Makes a call with a book's head and tables in their place.
macro_rules! call {
    ($name:ident($($before:expr),*; $book:expr; $($after:expr),*)) => {
        // SAFETY: each pointer comes with the length of the array it points
        // to, the arrays do not overlap, and nothing is kept after the call.
        unsafe {
            $name(
                $($before,)*
                $book.head.as_mut_ptr(), $book.head.len(),
                $book.inner_vertices.as_mut_ptr(), $book.inner_vertices.len(),
                $book.inner_tokens.as_mut_ptr(), $book.inner_tokens.len(),
                $book.outer_vertices.as_mut_ptr(), $book.outer_vertices.len(),
                $book.outer_tokens.as_mut_ptr(), $book.outer_tokens.len(),
                $book.resources.as_mut_ptr(), $book.resources.len(),
                $($after),*
            )
        }
    };
}

/// A call that said no and changed nothing: its result, which is the reason's
/// number, for 11 with the view in its upper byte.
#[derive(Debug, PartialEq)]
struct No(u16);

/// Bytes that are no sound book: the number, the place, the row that starts
/// there, and the reason.
fn broken(bytes: &[u8], number: u16, place: usize) -> String {
    let row = if number >= BROKEN_S1 && place != NO_ROW {
        row_at(bytes, place)
    } else {
        String::new()
    };
    let reason = REASONS.iter().find(|(n, _)| *n == number);
    let (_, reason) = reason.unwrap_or(&(0, "no such refusal"));
    format!("{number} at {place}{row}: {reason}")
}

/// The row at a place of a book's bytes, by the version and the counts in
/// their header; in version 2 the set of leavers stands before all rows.
fn row_at(bytes: &[u8], place: usize) -> String {
    let mut start = if bytes[3] == 1 {
        BOOK_HEADER
    } else {
        BOOK_ROWS
    };
    for (name, count, width) in SECTIONS {
        let rows = usize::from(u16::from_le_bytes([bytes[count], bytes[count + 1]]));
        let end = start + rows * width;
        if (start..end).contains(&place) {
            return format!(", {name} row {}", (place - start) / width);
        }
        start = end;
    }
    ", the set of leavers".into()
}

/// The rows of an accepted request, to be obeyed in their order. A host with
/// real keys keeps them together with the new book, in one step, before it
/// begins to obey: keep.c says it at length.
type Orders = Vec<[u16; 3]>;

fn done<T>(result: u16, given: T) -> Result<T, No> {
    if result == 0 {
        Ok(given)
    } else {
        Err(No(result))
    }
}

/// Lends an order list to a request and takes the rows it was given.
fn ordered(request: impl FnOnce(*mut u16, usize, *mut u16) -> u16) -> Result<Orders, No> {
    let (mut list, mut count) = ([0; ORDER_ROWS * 3], 0);
    let result = request(list.as_mut_ptr(), list.len(), &mut count);
    let rows = list.chunks_exact(3).take(usize::from(count));
    done(result, rows.map(|row| [row[0], row[1], row[2]]).collect())
}

impl Book {
    /// The empty book. What stands in tables that are not in use is never
    /// looked at.
    fn empty_delta(unused: u8) -> Book {
        let mut head = [0; HEAD_LEN];
        head[0] = MODE_DELTA;
        Book {
            head,
            inner_vertices: [unused; INNER_VERTICES_BYTES],
            inner_tokens: [unused; INNER_TOKENS_BYTES],
            outer_vertices: [unused; OUTER_VERTICES_BYTES],
            outer_tokens: [unused; OUTER_TOKENS_BYTES],
            resources: [unused; RESOURCES_BYTES],
        }
    }

    fn check(&mut self) -> Result<(), No> {
        done(call!(fenstubble_check(; self;)), ())
    }

    fn join(&mut self) -> Result<Orders, No> {
        ordered(|rows, len, count| call!(fenstubble_join(; self; rows, len, count)))
    }

    /// A set of people is bytes: bit i % 8 of byte i / 8 for person i.
    fn insert(&mut self, people: &[usize]) -> Result<Orders, No> {
        let mut list = [0; SET_BYTES];
        people.iter().for_each(|i| list[i / 8] |= 1 << (i % 8));
        ordered(
            |rows, len, count| call!(fenstubble_insert(; self; rows, len, count, list.as_ptr(), list.len())),
        )
    }

    fn grant(&mut self, resource: u16, user: u16) -> Result<Orders, No> {
        ordered(
            |rows, len, count| call!(fenstubble_grant(; self; rows, len, count, resource, user)),
        )
    }

    fn revoke(&mut self, resource: u16, user: u16) -> Result<Orders, No> {
        ordered(
            |rows, len, count| call!(fenstubble_revoke(; self; rows, len, count, resource, user)),
        )
    }

    fn leave(&mut self, user: u16) -> Result<Orders, No> {
        ordered(|rows, len, count| call!(fenstubble_leave(; self; rows, len, count, user)))
    }

    /// The set of leavers is four numbers of the head, 16 people in each.
    fn has_left(&self, user: usize) -> bool {
        self.head[HEAD_LEAVERS + user / 16] >> (user % 16) & 1 == 1
    }

    /// The token rows of the inner chain, then those of the outer.
    fn open(&mut self, user: u16, resource: u16) -> Result<(Vec<u16>, Vec<u16>), No> {
        let (mut list, mut inner, mut outer) = ([0; OPEN_ROWS], 0, 0);
        let result = call!(fenstubble_open(; self; user, resource, list.as_mut_ptr(), list.len(), &mut inner, &mut outer));
        let (inner, outer) = (usize::from(inner), usize::from(outer));
        done(
            result,
            (list[..inner].to_vec(), list[inner..inner + outer].to_vec()),
        )
    }

    fn write(&mut self) -> Result<Vec<u8>, No> {
        let (mut buffer, mut length) = (vec![0; BOOK_BYTES], 0);
        let result =
            call!(fenstubble_write(; self; buffer.as_mut_ptr(), buffer.len(), &mut length));
        buffer.truncate(length);
        done(result, buffer)
    }

    /// Bytes that are no sound book are told in words.
    fn read(&mut self, bytes: &[u8]) -> Result<(), (No, String)> {
        let mut place = 0;
        let result = call!(fenstubble_read(bytes.as_ptr(), bytes.len(); self; &mut place));
        done(result, ()).map_err(|no| (no, broken(bytes, result, place)))
    }
}

/// What an order asks of the host. In an insert the lock comes before its
/// folder: keep.c.
fn obey(order: [u16; 3]) -> Result<(), String> {
    match order {
        [1, v, _] => println!("  make outer key {v}"),
        [2, from, to] => println!("  publish outer token {from} -> {to}"),
        [3, r, NO_OUTER] => println!("  take the outer lock off folder {r}"),
        [3, r, v] => println!("  re-lock folder {r} with outer key {v}"),
        [4, v, _] => println!("  make inner key {v}"),
        [5, from, to] => println!("  publish inner token {from} -> {to}"),
        [6, from, to] => println!("  publish access token {from} -> {to}"),
        [7, r, v] => println!("  encrypt folder {r} with access key {v}"),
        _ => return Err("an order of kind 1 to 7".into()),
    }
    Ok(())
}

/// An accepted request's orders are obeyed one after the other.
fn accepted(result: Result<Orders, No>) -> Result<(), String> {
    let orders =
        result.map_err(|No(number)| format!("a request that is accepted, not {number}"))?;
    orders.into_iter().try_for_each(obey)
}

fn refused(result: Result<Orders, No>, number: u16) -> Result<(), String> {
    expect(result == Err(No(number)), "a request that is refused")?;
    println!("  refused: {number}");
    Ok(())
}

/// How a person opens a folder; `closed` is the view where they do not: 1 the
/// outer lock holds, 2 the inner, 3 both.
fn open(book: &mut Book, user: u16, resource: u16, closed: Option<u16>) -> Result<(), String> {
    println!("open folder {resource} as person {user}");
    match (book.open(user, resource), closed) {
        (Ok((inner, outer)), None) => {
            inner
                .iter()
                .for_each(|row| println!("  follow inner token row {row}"));
            outer
                .iter()
                .for_each(|row| println!("  follow outer token row {row}"));
            println!("  open");
        }
        (Err(no), Some(view @ 1..=3)) if no == No(CLOSED + 256 * view) => {
            println!(
                "  closed by {}",
                ["the outer lock", "the inner lock", "both locks"][usize::from(view) - 1]
            );
        }
        (other, _) => return Err(format!("an open that answers otherwise than {other:?}")),
    }
    Ok(())
}

fn expect(met: bool, what: &str) -> Result<(), String> {
    met.then_some(()).ok_or(what.into())
}

fn keep(file: &Path) -> Result<(), String> {
    // SAFETY: it is lent nothing.
    let version = unsafe { fenstubble_version() };
    let fits = version / 10000 == VERSION / 10000 && version >= VERSION;
    expect(fits, "a library that fits")?;

    let mut book = Book::empty_delta(0);
    expect(book.check().is_ok(), "an empty book that is sound")?;
    println!("an empty delta book");

    for person in 0..3 {
        println!("person {person} joins");
        accepted(book.join())?;
    }

    println!("insert folder 0 for persons 0 and 1");
    accepted(book.insert(&[0, 1]))?;
    println!("insert folder 1 for persons 0 and 1");
    accepted(book.insert(&[0, 1]))?;

    // Both folders have the same inner key: the new reader of one must be
    // kept out of the other.
    println!("grant folder 0 to person 2");
    accepted(book.grant(0, 2))?;
    open(&mut book, 2, 0, None)?;
    open(&mut book, 2, 1, Some(1))?;

    println!("revoke folder 0 from person 1");
    accepted(book.revoke(0, 1))?;
    open(&mut book, 1, 0, Some(1))?;
    open(&mut book, 0, 0, None)?;

    println!("revoke folder 0 from person 1 again");
    refused(book.revoke(0, 1), NOT_LISTED)?;
    println!("grant folder 0 to person 9");
    refused(book.grant(0, 9), NO_SUCH)?;

    // To a file, and back into tables that know nothing of it.
    let bytes = book.write().map_err(|_| "a book that can be written")?;
    fs::write(file, &bytes).map_err(|_| "a file that can be written")?;
    println!("write the book: {} bytes", bytes.len());
    let mut back = fs::read(file).map_err(|_| "a file that can be read")?;
    let mut again = Book::empty_delta(0xFF);
    again.read(&back).map_err(|(_, told)| told)?;
    expect(again.head == book.head, "the same head")?;
    expect(again.write().as_ref() == Ok(&bytes), "the same book")?;
    println!("read it back: the same book");
    open(&mut again, 2, 0, None)?;
    println!("grant folder 0 to person 1 again");
    accepted(again.grant(0, 1))?;
    open(&mut again, 1, 0, None)?;

    // Who leaves is taken off every list at once, and is on none again.
    println!("person 1 leaves");
    accepted(again.leave(1))?;
    let left = again.has_left(1) && !again.has_left(0);
    expect(left, "one who has left, and one who has not")?;
    open(&mut again, 1, 1, Some(1))?;
    println!("grant folder 0 to person 1 once more");
    refused(again.grant(0, 1), HAS_LEFT)?;

    // Nothing that is not a sound book is taken for one.
    back[bytes.len() - 4] ^= 1;
    println!("read it with one bit changed");
    match again.read(&back) {
        Err((No(BROKEN_S7), told)) => println!("  refused: {told}"),
        other => return Err(format!("a damaged book that is refused, not {other:?}")),
    }

    println!("all as expected");
    Ok(())
}

fn main() -> ExitCode {
    let Some(file) = env::args_os().nth(1) else {
        eprintln!("usage: keep FILE");
        return ExitCode::from(2);
    };
    match keep(Path::new(&file)) {
        Ok(()) => ExitCode::SUCCESS,
        Err(what) => {
            eprintln!("not as expected: {what}");
            ExitCode::FAILURE
        }
    }
}
