//! The check program: a book's bytes in, what they are out.

use std::io::{self, Read, Write};

use crate::book::SoundBook;
use crate::bytes;
use crate::refusal::Refusal;

/// Reads the input to its end and says whether it is a book.
pub fn run(mut input: impl Read, mut output: impl Write) -> io::Result<()> {
    let mut given = Vec::new();
    input.read_to_end(&mut given)?;
    output.write_all(report(&given).as_bytes())?;
    output.flush()
}

/// What is said of the bytes: of a book that it is sound, and its head; of
/// others the number and the place, and what is wrong there in words.
pub fn report(given: &[u8]) -> String {
    match bytes::read(given) {
        Ok(book) => sound(&book),
        Err(fault) => format!("{}\n{fault}\n", Refusal::from(fault)),
    }
}

fn sound(book: &SoundBook) -> String {
    let head = book.book().head();
    let counts = [
        ("users", u32::from(head.users)),
        ("folders", u32::from(head.resources)),
        ("inner vertices", u32::from(head.inner_vertices)),
        ("inner tokens", u32::from(head.inner_tokens)),
        ("outer vertices", u32::from(head.outer_vertices)),
        ("outer tokens", u32::from(head.outer_tokens)),
        ("leavers", head.leavers.size()),
    ];
    let mut text = format!("sound\nmode {}\n", book.mode().word());
    for (name, count) in counts {
        text += &format!("{name} {count}\n");
    }
    text
}
