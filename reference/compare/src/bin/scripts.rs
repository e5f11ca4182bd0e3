//! Compares the request programs on whole scripts.

use std::io::{self, Write};
use std::process::ExitCode;

use fenstubble_compare::process::Process;
use fenstubble_compare::{command, scripts};

fn main() -> ExitCode {
    match Process::desk() {
        Ok(desk) => command::run("scripts", 500_000, |bounds| scripts::run(&desk, bounds)),
        Err(text) => {
            let _ = writeln!(io::stderr(), "scripts: {text}");
            ExitCode::from(2)
        }
    }
}
