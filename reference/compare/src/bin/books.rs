//! Compares check, section, read and write.

use std::process::ExitCode;

use fenstubble_compare::{books, command};

fn main() -> ExitCode {
    command::run("books", 100_000, books::run)
}
