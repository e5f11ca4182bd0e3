//! The arguments of the programs, and their ends.

use std::fmt::Display;
use std::io::{self, Write};
use std::process::ExitCode;
use std::time::Duration;

use crate::report::{Bounds, Report};

/// Reads `--seed N`, `--count N`, `--first N` and `--seconds N`.
fn bounds(arguments: impl Iterator<Item = String>, count: usize) -> Result<Bounds, String> {
    let mut bounds = Bounds {
        seed: 1,
        first: 0,
        count,
        time: None,
    };
    let mut arguments = arguments;
    while let Some(name) = arguments.next() {
        let given = arguments.next();
        let number: Option<u64> = given.as_deref().and_then(|word| word.parse().ok());
        match (name.as_str(), number) {
            ("--seed", Some(number)) => bounds.seed = number,
            ("--first", Some(number)) => bounds.first = number,
            ("--count", Some(number)) => {
                bounds.count = usize::try_from(number).unwrap_or(usize::MAX);
            }
            ("--seconds", Some(number)) => bounds.time = Some(Duration::from_secs(number)),
            ("--seed" | "--first" | "--count" | "--seconds", None) => {
                return Err(format!("{name} takes a number"));
            }
            _ => return Err(format!("unknown argument: {name}")),
        }
    }
    Ok(bounds)
}

/// Runs a family of comparisons as the program's arguments say: prints its
/// summary, or the report of a difference with status 1.
pub fn run<S: Display>(
    name: &str,
    count: usize,
    family: impl FnOnce(Bounds) -> Result<S, Box<Report>>,
) -> ExitCode {
    let bounds = match bounds(std::env::args().skip(1), count) {
        Ok(bounds) => bounds,
        Err(text) => {
            let usage = format!("{name} [--seed N] [--count N] [--first N] [--seconds N]");
            let _ = writeln!(io::stderr(), "{name}: {text}\nusage: {usage}");
            return ExitCode::from(2);
        }
    };
    let (text, code) = match family(bounds) {
        Ok(summary) => (
            format!("seed {}: {summary}", bounds.seed),
            ExitCode::SUCCESS,
        ),
        Err(report) => (report.to_string(), ExitCode::FAILURE),
    };
    match write!(io::stdout(), "{text}") {
        Ok(()) => code,
        Err(_) => ExitCode::FAILURE,
    }
}

#[cfg(test)]
mod tests {
    use super::*;

    #[test]
    fn arguments() {
        let read = |text: &str| bounds(text.split_whitespace().map(String::from), 7);
        let default = Bounds {
            seed: 1,
            first: 0,
            count: 7,
            time: None,
        };
        assert_eq!(read(""), Ok(default));
        let given = Bounds {
            seed: 5,
            first: 3,
            count: 9,
            time: Some(Duration::from_secs(2)),
        };
        assert_eq!(read("--count 9 --seed 5 --first 3 --seconds 2"), Ok(given));
        for wrong in ["--seed", "--seed x", "--count -1", "5", "--help"] {
            assert!(read(wrong).is_err(), "{wrong}");
        }
    }
}
