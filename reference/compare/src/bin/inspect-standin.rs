//! A stand-in for the engine's check program: the reference program, with the
//! fault that its argument names. It shows that the comparison of check
//! programs finds nothing where nothing differs, and finds what does.

use std::io::{self, Read, Write};
use std::process::ExitCode;

use fenstubble_reference::bytes::LARGEST;
use fenstubble_reference::inspect;

/// The bytes that the program with that fault judges.
fn misread(fault: &str) -> io::Result<Vec<u8>> {
    let mut input = Vec::new();
    let mut stdin = io::stdin().lock();
    match fault {
        // What one read gives.
        "one-read" => {
            input.resize(1 << 17, 0);
            let count = stdin.read(&mut input)?;
            input.truncate(count);
        }
        // A buffer for the largest book and a byte more: longer input is told
        // by the length of the buffer.
        "stops-at-largest" => {
            stdin.take(LARGEST as u64 + 1).read_to_end(&mut input)?;
        }
        "cuts-at-65536" => {
            stdin.take(65_536).read_to_end(&mut input)?;
        }
        _ => {
            stdin.read_to_end(&mut input)?;
        }
    }
    if fault == "drops-last-newline" && input.last() == Some(&b'\n') {
        input.pop();
    }
    Ok(input)
}

/// What the program with that fault writes for its output.
fn miswritten(fault: &str, output: String) -> String {
    let lines: Vec<&str> = output.lines().collect();
    let is_sound = output.starts_with("sound\n");
    let first = lines[0];
    match fault {
        "one-line" if !is_sound => format!("{first}\n"),
        "three-lines" if !is_sound => format!("{output}and more\n"),
        "no-words" if !is_sound => format!("{first}\n\n"),
        "other-words" if !is_sound => format!("{first}\nsomething is wrong\n"),
        "no-last-newline" => output.trim_end().into(),
        "no-place" if !is_sound => {
            let number: Vec<&str> = first.split(' ').take(2).collect();
            format!("{}\n{}\n", number.join(" "), lines[1])
        }
        "place-in-16-bits" if !is_sound => {
            let words: Vec<&str> = first.split(' ').collect();
            let place: usize = words[2].parse().unwrap_or(0);
            format!("no {} {}\n{}\n", words[1], place % 65_536, lines[1])
        }
        "twelve" if !is_sound => format!("no 12\n{}\n", lines[1]),
        "no-counts" if is_sound => "sound\n".into(),
        "counts-swapped" if is_sound => {
            let mut lines = lines;
            lines.swap(4, 5);
            format!("{}\n", lines.join("\n"))
        }
        "eight-lines" if is_sound => format!("{}\n", lines[..8].join("\n")),
        // Those who have not left are counted.
        "staying" if is_sound => {
            let count = |line: &str| line.rsplit(' ').next().and_then(|n| n.parse().ok());
            let [users, leavers]: [usize; 2] = [lines[2], lines[8]].map(|l| count(l).unwrap_or(0));
            format!("{}\nleavers {}\n", lines[..8].join("\n"), users - leavers)
        }
        "folders-as-resources" => output.replace("folders", "resources"),
        _ => output,
    }
}

fn main() -> ExitCode {
    let fault = std::env::args().nth(1).unwrap_or_default();
    let Ok(input) = misread(&fault) else {
        return ExitCode::FAILURE;
    };
    let mut report = inspect::report(&input);
    if fault == "old-refused" && input.get(3) == Some(&1) && report.starts_with("sound\n") {
        report = "no 21 3\nanother version\n".into();
    }
    let is_sound = report.starts_with("sound\n");
    let written = io::stdout().write_all(miswritten(&fault, report).as_bytes());
    if fault == "aborts" && !is_sound {
        std::process::abort();
    }
    match written {
        Ok(()) if fault == "status-1" && !is_sound => ExitCode::from(1),
        Ok(()) => ExitCode::SUCCESS,
        Err(_) => ExitCode::FAILURE,
    }
}
