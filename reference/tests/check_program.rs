//! The check program: what it prints of a book's bytes, and of others.

mod common;

use std::io::{self, ErrorKind, Read};

use common::{joined, set};
use fenstubble_reference::book::{Book, Mode};
use fenstubble_reference::bytes::{self, Version};
use fenstubble_reference::generate::{self, Random, Shape};
use fenstubble_reference::inspect;

/// An input that comes in pieces of so many bytes, with interruptions.
struct Pieces<'a> {
    left: &'a [u8],
    size: usize,
    interrupted: bool,
}

impl Read for Pieces<'_> {
    fn read(&mut self, buffer: &mut [u8]) -> io::Result<usize> {
        self.interrupted = !self.interrupted;
        if self.interrupted {
            return Err(ErrorKind::Interrupted.into());
        }
        let count = self.size.min(buffer.len()).min(self.left.len());
        let (piece, left) = self.left.split_at(count);
        buffer[..count].copy_from_slice(piece);
        self.left = left;
        Ok(count)
    }
}

/// What the program prints; it is the same however the input comes.
fn output(input: &[u8]) -> String {
    let print = |size: usize| {
        let pieces = Pieces {
            left: input,
            size,
            interrupted: false,
        };
        let mut out = Vec::new();
        inspect::run(pieces, &mut out).unwrap();
        String::from_utf8(out).unwrap()
    };
    let whole = print(usize::MAX);
    for size in [1, 7, 4096, 65536] {
        if size > 1 || input.len() < 5000 {
            assert_eq!(print(size), whole);
        }
    }
    whole
}

/// The first line for bytes that are no book; there are exactly two.
fn first_line(input: &[u8]) -> String {
    let output = output(input);
    assert!(output.ends_with('\n'));
    let lines: Vec<&str> = output.lines().collect();
    assert_eq!(lines.len(), 2, "{output}");
    assert!(!lines[1].is_empty());
    lines[0].into()
}

#[test]
fn sound_books() {
    assert_eq!(
        output(&bytes::write(&Book::empty(Mode::Full))),
        "sound\nmode full\nusers 0\nfolders 0\ninner vertices 0\ninner tokens 0\n\
         outer vertices 0\nouter tokens 0\nleavers 0\n"
    );
    // P1 to P3.
    let mut book = joined(Mode::Delta, 3);
    book.insert(set(&[0, 1]), usize::MAX).unwrap();
    book.insert(set(&[0, 1]), usize::MAX).unwrap();
    book.grant(common::r(0), common::u(2), usize::MAX).unwrap();
    let head = "sound\nmode delta\nusers 3\nfolders 2\ninner vertices 4\ninner tokens 3\n\
                outer vertices 4\nouter tokens 2\nleavers ";
    for version in Version::ALL {
        let bytes = bytes::write_as(book.book(), version);
        assert_eq!(output(&bytes), format!("{head}0\n"));
    }
    // 1 leaves: folder 0 for {0,2}, a new outer vertex with two tokens, and
    // folder 1 for {0}; then 2, who is on one list, and 0.
    book.leave(common::u(1), usize::MAX).unwrap();
    let head = head.replace(
        "outer vertices 4\nouter tokens 2",
        "outer vertices 5\nouter tokens 4",
    );
    assert_eq!(output(&bytes::write(book.book())), format!("{head}1\n"));
    book.leave(common::u(2), usize::MAX).unwrap();
    assert_eq!(output(&bytes::write(book.book())), format!("{head}2\n"));
    book.leave(common::u(0), usize::MAX).unwrap();
    let head = head.replace("outer vertices 5", "outer vertices 6");
    assert_eq!(output(&bytes::write(book.book())), format!("{head}3\n"));
}

#[test]
fn large_books() {
    let random = &mut Random::new(15);
    let shape = Shape::full(random);
    let book = generate::book(random, &shape);
    let text = output(&bytes::write(&book));
    assert_eq!(text.lines().count(), 9, "{text}");
    assert!(text.starts_with("sound\n"), "{text}");
    let tokens = book.outer_tokens.len();
    let leavers = book.leavers.size();
    let end = format!("outer tokens {tokens}\nleavers {leavers}\n");
    assert!(text.ends_with(&end), "{text}");
}

#[test]
fn what_is_wrong() {
    let empty = bytes::write(&Book::empty(Mode::Delta));
    assert_eq!(first_line(b""), "no 24 0");
    assert_eq!(first_line(&empty[..16]), "no 24 16");
    assert_eq!(first_line(&empty[..24]), "no 24 24");
    assert_eq!(first_line(&[0; 17]), "no 20 0");
    for (at, value, line) in [
        (4, 1, "no 21 3"),
        (5, 2, "no 22 5"),
        (6, 65, "no 23 6"),
        (16, 255, "no 23 15"),
        (6, 1, "no 32 65535"),
        (13, 1, "no 24 25"),
        (3, 1, "no 24 25"),
        (24, 128, "no 31 17"),
    ] {
        let mut bytes = empty.clone();
        bytes[at] = value;
        assert_eq!(first_line(&bytes), line);
    }
    // The second line names the set of leavers, and nothing else does.
    let mut bytes = empty.clone();
    bytes[17] = 1;
    let line = output(&bytes);
    assert!(line.starts_with("no 31 17\n") && line.contains("set of leavers"));
    // Each of S1 to S8 has words of its own.
    let mut words = Vec::new();
    let mut random = Random::new(9);
    while words.len() < 8 {
        let shape = Shape::small(&mut random);
        let book = generate::book(&mut random, &shape);
        let damaged = generate::damage(&mut random, &book);
        if damaged.mode > 1 || damaged.users > 255 {
            continue;
        }
        if let Err(fault) = bytes::read(&bytes::write(&damaged)) {
            let line = format!("no {} {}", fault.number(), fault.place());
            assert_eq!(first_line(&bytes::write(&damaged)), line);
            let number = fault.number();
            let text = fault.to_string();
            let leavers = (number, fault.place()) == (31, 17);
            assert_eq!(text.contains("set of leavers"), leavers);
            if number > 30 && fault.place() != 65535 && !words.contains(&number) {
                assert!(text.contains(&format!("(S{})", number - 30)), "{text}");
                words.push(number);
            }
        }
    }
}

#[test]
fn long_inputs_are_judged_as_a_whole() {
    let mut bytes = bytes::write(&Book::empty(Mode::Delta));
    for length in [26, 46_617, 46_618, 65_535, 65_536, 70_000, 200_000] {
        bytes.resize(length, 0);
        assert_eq!(first_line(&bytes), format!("no 24 {length}"));
    }
    // What comes before the length is told of long ones too.
    bytes[15] = 255;
    bytes[16] = 255;
    assert_eq!(first_line(&bytes), "no 23 15");
    bytes[0] = 0;
    assert_eq!(first_line(&bytes), "no 20 0");
}
