//! A stand-in for the engine's request program: the reference program, with
//! the fault that its argument names. It shows that the comparison of scripts
//! finds nothing where nothing differs, and finds what does.

use std::io::{self, Read, Write};
use std::process::ExitCode;

use fenstubble_reference::program::{self, LONGEST_LINE};

/// The input with every line changed.
fn lines(input: &[u8], change: impl FnMut(&[u8]) -> Vec<u8>) -> Vec<u8> {
    input
        .split(|&byte| byte == b'\n')
        .map(change)
        .collect::<Vec<_>>()
        .join(&b'\n')
}

/// The input with every word changed, or left out.
fn words(input: &[u8], change: impl Fn(&str) -> Option<String>) -> Vec<u8> {
    lines(input, |line| match std::str::from_utf8(line) {
        Ok(line) => {
            let words: Vec<String> = line.split(' ').filter_map(&change).collect();
            words.join(" ").into()
        }
        Err(_) => line.to_vec(),
    })
}

/// The input with a newline after every so many bytes of a line, or of all.
fn broken(stretch: &[u8], every: usize) -> Vec<u8> {
    stretch.chunks(every).collect::<Vec<_>>().join(&b'\n')
}

/// What the program with that fault takes for its input.
fn misread(fault: &str, input: Vec<u8>) -> Vec<u8> {
    match fault {
        "strips-cr" => lines(&input, |line| {
            line.strip_suffix(b"\r").unwrap_or(line).into()
        }),
        "strips-spaces" => lines(&input, |line| line.trim_ascii_end().into()),
        "takes-513" => lines(&input, |line| match line {
            [cut @ .., _] if line.len() == LONGEST_LINE + 1 => cut.into(),
            _ => line.into(),
        }),
        "refuses-512" => lines(&input, |line| match line.len() {
            LONGEST_LINE => b"?".into(),
            _ => line.into(),
        }),
        "splits-long-lines" => lines(&input, |line| broken(line, LONGEST_LINE)),
        "breaks-chunks" => broken(&input, 4096),
        "drops-last-line" => {
            let end = input.iter().rposition(|&byte| byte == b'\n');
            input[..end.map_or(0, |at| at + 1)].into()
        }
        "skips-empty-lines" => {
            let mut input = input;
            input.dedup_by(|b, a| *a == b'\n' && *b == b'\n');
            input
        }
        "no-leaves" => words(&input, |word| match word {
            "leave" => Some("view".into()),
            _ => Some(word.into()),
        }),
        "stops-at-malformed" => {
            let first = input.split_inclusive(|&byte| byte == b'\n');
            let mut kept = Vec::new();
            for (place, line) in first.enumerate() {
                kept.extend(line);
                let request = line.strip_suffix(b"\n").unwrap_or(line);
                if place > 0 && program::request(request).is_none() {
                    break;
                }
            }
            kept
        }
        "wraps" => words(&input, |word| match (word.len(), word.parse::<u32>()) {
            (5, Ok(number)) => Some((number % 65536).to_string()),
            _ => Some(word.into()),
        }),
        "takes-zeros" => words(&input, |word| match word.trim_start_matches('0') {
            "" if !word.is_empty() => Some("0".into()),
            rest => Some(rest.into()),
        }),
        "takes-six-digits" => words(&input, |word| match word.parse::<u32>() {
            Ok(100_000..=999_999) => Some("99999".into()),
            _ => Some(word.into()),
        }),
        "ends-lines-at-nul" => lines(&input, |line| {
            let end = line.iter().position(|&byte| byte == 0);
            line[..end.unwrap_or(line.len())].into()
        }),
        // The second of two is another such number.
        "no-doubles-above-63" => lines(&input, |line| {
            let words: Vec<&[u8]> = line.split(|&byte| byte == b' ').collect();
            let other = |(place, word): (usize, &&[u8])| {
                let number = String::from_utf8_lossy(word).parse().unwrap_or(0);
                match number {
                    64..100_000 if words[..place].contains(word) => {
                        (99_000 + place).to_string().into()
                    }
                    _ => word.to_vec(),
                }
            };
            words
                .iter()
                .enumerate()
                .map(other)
                .collect::<Vec<_>>()
                .join(&b' ')
        }),
        _ => input,
    }
}

/// The output with the rows of each answer put otherwise.
fn answers(text: &str, put: impl Fn(&mut [&str])) -> Vec<u8> {
    let mut lines: Vec<&str> = text.lines().collect();
    let mut at = 0;
    while let Some(line) = lines.get(at) {
        let count = line.strip_prefix("ok ").unwrap_or("0");
        let end = at + 1 + count.parse().unwrap_or(0);
        put(&mut lines[at + 1..end]);
        at = end;
    }
    lines
        .iter()
        .flat_map(|line| [line, "\n"])
        .collect::<String>()
        .into()
}

/// What the program with that fault writes for its output.
fn miswritten(fault: &str, output: Vec<u8>) -> Vec<u8> {
    let text = String::from_utf8_lossy(&output);
    match fault {
        "loses-the-view" => text
            .lines()
            .map(|line| {
                let line = if line.starts_with("no 11 ") {
                    "no 11"
                } else {
                    line
                };
                format!("{line}\n")
            })
            .collect::<String>()
            .into(),
        "no-last-newline" => text.trim_end().into(),
        "nothing-for-nothing" if output == b"no 14\n" => Vec::new(),
        "o-for-i" => text.replace("i ", "o ").into(),
        "token-first" => answers(&text, |rows| rows.sort_by_key(|row| !row.starts_with("6 "))),
        "folder-first" => answers(&text, |rows| {
            rows.sort_by_key(|row| match row.as_bytes()[0] {
                b'4' | b'5' => 0,
                b'7' => 1,
                _ => 2,
            });
        }),
        // As a list of 4,351 rows would have it.
        "few-leave-rows" => match text.find("ok 4352\n") {
            Some(at) => [&output[..at], b"no 10\n"].concat(),
            None => output,
        },
        "leaves-again" => text.replace("no 15\n", "ok 0\n").into(),
        // As a list of 319 rows would have it.
        "few-order-rows" => match text.find("ok 320\n") {
            Some(at) => [&output[..at], b"no 10\n"].concat(),
            None => output,
        },
        _ => output,
    }
}

fn main() -> ExitCode {
    let fault = std::env::args().nth(1).unwrap_or_default();
    let (mut input, mut output) = (Vec::new(), Vec::new());
    let done = io::stdin()
        .read_to_end(&mut input)
        .and_then(|_| program::run(&misread(&fault, input)[..], &mut output))
        .and_then(|()| io::stdout().write_all(&miswritten(&fault, output)));
    match fault.as_str() {
        "status-3" => ExitCode::from(3),
        "aborts" => std::process::abort(),
        _ if done.is_ok() => ExitCode::SUCCESS,
        _ => ExitCode::FAILURE,
    }
}
