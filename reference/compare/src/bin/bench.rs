//! Measures the engine's library and program beside the reference program, and
//! prints Markdown tables; `bench --stack` prints that of the stack alone, and
//! `bench --books FOLDER` puts the measured books there and prints the calls on
//! them.

use std::io::{self, Write};
use std::path::Path;
use std::process::ExitCode;

use fenstubble_compare::bench;

fn main() -> ExitCode {
    let arguments: Vec<String> = std::env::args().skip(1).collect();
    let say = |what: &str| {
        let _ = writeln!(io::stderr(), "bench: {what}");
    };
    let tables = match arguments.iter().map(String::as_str).collect::<Vec<_>>()[..] {
        [] => bench::tables(say),
        ["--stack"] => bench::stacks(),
        ["--books", folder] => match bench::books(Path::new(folder)) {
            Ok(calls) => calls,
            Err(error) => {
                say(&format!("{folder}: {error}"));
                return ExitCode::FAILURE;
            }
        },
        _ => {
            say("usage: bench [--stack | --books FOLDER]");
            return ExitCode::from(2);
        }
    };
    match write!(io::stdout(), "{tables}") {
        Ok(()) => ExitCode::SUCCESS,
        Err(_) => ExitCode::FAILURE,
    }
}
