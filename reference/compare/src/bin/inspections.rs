//! Compares the check programs on the bytes of books.

use std::io::{self, Write};
use std::process::ExitCode;

use fenstubble_compare::process::Process;
use fenstubble_compare::{command, inspections};

fn main() -> ExitCode {
    match Process::inspect() {
        Ok(program) => command::run("inspections", 20_000, |bounds| {
            inspections::run(&program, bounds)
        }),
        Err(text) => {
            let _ = writeln!(io::stderr(), "inspections: {text}");
            ExitCode::from(2)
        }
    }
}
