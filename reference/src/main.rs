//! The command: the request program, the check program, or random runs that
//! check themselves.

use std::io::{self, ErrorKind, Write};
use std::process::ExitCode;

use fenstubble_reference::{check, inspect, program};

const HELP: &str = "\
reference: an independent model of the two-layer book

reference < requests
    Runs the request program: the first line is `delta` or `full`, each
    further line a request, `join`, `insert u u ..`, `grant r u`,
    `revoke r u`, `leave u` or `open u r`. Each is answered with `ok N` and
    N rows, or with `no K`.

reference --inspect < book
    Runs the check program: of bytes that are a book it prints `sound` and the
    head, of others `no K PLACE` and what is wrong there.

reference --check [seed] [steps]
    Makes random requests (20000 from seed 1, if not told otherwise) in random
    worlds of both modes and verifies every step, and the stops of a host
    between its orders. Prints a summary; a failure prints the seed, the step
    and the smallest script found, and exits with status 1.

reference --help
    Prints this.
";

fn main() -> ExitCode {
    let arguments: Vec<String> = std::env::args_os()
        .skip(1)
        .map(|argument| argument.to_string_lossy().into_owned())
        .collect();
    let words: Vec<&str> = arguments.iter().map(String::as_str).collect();
    match words.as_slice() {
        [] => ended(program::run(io::stdin().lock(), io::stdout().lock())),
        ["--help"] => print(HELP),
        ["--inspect"] => ended(inspect::run(io::stdin().lock(), io::stdout().lock())),
        ["--check", numbers @ ..] if numbers.len() <= 2 => {
            let mut given = [1, 20_000];
            for (number, word) in given.iter_mut().zip(numbers) {
                match word.parse() {
                    Ok(value) => *number = value,
                    Err(_) => return misused(&format!("not a number: {word}")),
                }
            }
            checks(given[0], given[1])
        }
        ["--inspect", ..] => misused("--inspect takes no argument"),
        ["--check", ..] => misused("--check takes a seed and a count of steps, no more"),
        [other, ..] => misused(&format!("unknown argument: {other}")),
    }
}

fn ended(done: io::Result<()>) -> ExitCode {
    match done {
        Ok(()) => ExitCode::SUCCESS,
        // Nobody reads on: that is no fault of the input.
        Err(error) if error.kind() == ErrorKind::BrokenPipe => ExitCode::SUCCESS,
        Err(_) => ExitCode::FAILURE,
    }
}

fn checks(seed: u64, steps: u64) -> ExitCode {
    match check::run(seed, usize::try_from(steps).unwrap_or(usize::MAX)) {
        Ok(summary) => print(&format!("seed {seed}\n{summary}\n")),
        Err(failure) => {
            print(&format!("{failure}\n"));
            ExitCode::FAILURE
        }
    }
}

fn print(text: &str) -> ExitCode {
    ended(io::stdout().lock().write_all(text.as_bytes()))
}

fn misused(text: &str) -> ExitCode {
    // If even this can not be written, the status still says it.
    let _ = writeln!(io::stderr(), "reference: {text} (see reference --help)");
    ExitCode::from(2)
}
