//! One script on both programs: what differs, and the smallest script found
//! that still does.

use std::cell::Cell as Counter;
use std::fmt;

use fenstubble_reference::check;
use fenstubble_reference::program;
use fenstubble_reference::requests::Request;

use crate::process::{Process, Reply};
use crate::shrink::fewer;

/// How many bytes of smaller scripts are tried at most, each script counted
/// for no fewer than a process costs.
const MOST_TRIED: usize = 20_000_000;
const LEAST_COUNTED: usize = 4_000;

/// A request script.
#[derive(Clone, Debug, PartialEq, Eq)]
pub struct Script {
    /// The lines without their newlines; the first is the mode.
    pub lines: Vec<Vec<u8>>,
    /// Whether the last line has its newline.
    pub ended: bool,
}

impl Script {
    /// Its bytes.
    pub fn input(&self) -> Vec<u8> {
        let mut input = self.lines.join(&b'\n');
        if self.ended && !self.lines.is_empty() {
            input.push(b'\n');
        }
        input
    }

    /// The same with these lines.
    fn with(&self, lines: &[Vec<u8>]) -> Script {
        Script {
            lines: lines.to_vec(),
            ended: self.ended,
        }
    }
}

impl fmt::Display for Script {
    /// A command that makes its bytes, or line by line where that is long.
    fn fmt(&self, f: &mut fmt::Formatter<'_>) -> fmt::Result {
        let input = self.input();
        if input.len() <= 2048 {
            write!(f, "printf '")?;
            for byte in input {
                match byte {
                    b'\n' => write!(f, "\\n")?,
                    b'%' => write!(f, "%%")?,
                    b' '..=b'~' if !b"'\\".contains(&byte) => write!(f, "{}", char::from(byte))?,
                    _ => write!(f, "\\{byte:03o}")?,
                }
            }
            return writeln!(f, "' | target/bin/desk");
        }
        for same in self.lines.chunk_by(|one, next| one == next) {
            match same {
                [line] => writeln!(f, "{}", shown(line))?,
                _ => writeln!(f, "{} {} times", shown(&same[0]), same.len())?,
            }
        }
        writeln!(f, "({} bytes, ended {})", input.len(), self.ended)
    }
}

/// A line for the eye: odd bytes in escapes, long ones cut.
pub fn shown(line: &[u8]) -> String {
    match line.get(..80) {
        Some(start) => format!("`{}..` ({} bytes)", start.escape_ascii(), line.len()),
        None => format!("`{}`", line.escape_ascii()),
    }
}

/// The reference program's output.
fn expected(input: &[u8]) -> Vec<u8> {
    let mut output = Vec::new();
    program::run(input, &mut output).expect("a vector takes all");
    output
}

/// How the engine's program differs from the reference program on a script.
#[derive(Clone, Debug, PartialEq, Eq)]
pub struct Difference {
    /// The first output lines that differ, as kinds; smaller scripts keep
    /// them, so that they do not end at another difference.
    pub kinds: [String; 2],
    /// The request line answered there, counted from 1.
    pub request: usize,
    /// Both output lines.
    pub text: String,
}

/// A line of output without its numbers, where they are no refusal's.
pub fn kind(line: Option<&[u8]>) -> String {
    match line.map(|line| (line, String::from_utf8_lossy(line))) {
        None => "nothing".into(),
        Some((_, text)) if text.starts_with("no ") => text.into_owned(),
        Some((_, text)) if text.starts_with("ok ") => "ok".into(),
        Some((b"" | b"\n", _)) => "an empty line".into(),
        Some(_) => "a row".into(),
    }
}

impl Difference {
    fn of(reply: &Reply, expected: &[u8]) -> Option<Difference> {
        if reply.fault.is_none() && reply.output == expected {
            return None;
        }
        // Lines with their newlines, so that one that is missing shows.
        let mut engine = reply.output.split_inclusive(|&byte| byte == b'\n');
        let mut model = expected.split_inclusive(|&byte| byte == b'\n');
        let mut request = 0;
        let mut place = 0;
        let (by_engine, by_model) = loop {
            place += 1;
            let (a, b) = (engine.next(), model.next());
            // Each request line has one answer.
            if b.is_none_or(|line| line.starts_with(b"ok ") || line.starts_with(b"no ")) {
                request += 1;
            }
            if a != b || a.is_none() {
                break (a, b);
            }
        };
        let told = |line: Option<&[u8]>| line.map_or("nothing".into(), shown);
        let mut text = format!(
            "output line {place}: engine {}, reference {}\n",
            told(by_engine),
            told(by_model)
        );
        let mut kinds = [kind(by_engine), kind(by_model)];
        if let Some(fault) = &reply.fault {
            text += &format!("the engine's program: {fault}\n");
            kinds[0] += fault;
        }
        Some(Difference {
            kinds,
            request,
            text,
        })
    }
}

/// How the programs differ on the script, if they do; and the expected
/// output.
pub fn difference(desk: &Process, script: &Script, piece: usize) -> (Option<Difference>, Vec<u8>) {
    let input = script.input();
    let expected = expected(&input);
    let most = expected.len() * 2 + (1 << 20);
    let reply = desk.answer(&input, piece, most);
    (Difference::of(&reply, &expected), expected)
}

/// The smallest script found that still differs in that way.
pub fn smallest(desk: &Process, script: &Script, piece: usize, kinds: &[String; 2]) -> Script {
    let left = Counter::new(MOST_TRIED);
    let differs = |script: &Script| {
        let cost = script.input().len().max(LEAST_COUNTED);
        left.set(left.get().saturating_sub(cost));
        let found = (left.get() > 0).then(|| difference(desk, script, piece).0);
        found.flatten().is_some_and(|found| found.kinds == *kinds)
    };
    let script = shortest_start(script, &differs);
    let lines = fewer(&script.lines, |lines| differs(&script.with(lines)));
    let script = moved_up(script.with(&lines), &differs);
    shorter_lines(script, &differs)
}

/// The lines up to the first one that makes the difference.
fn shortest_start(script: &Script, differs: &impl Fn(&Script) -> bool) -> Script {
    let (mut alike, mut different) = (0, script.lines.len());
    while different - alike > 1 {
        let half = alike + (different - alike) / 2;
        if differs(&script.with(&script.lines[..half])) {
            different = half;
        } else {
            alike = half;
        }
    }
    script.with(&script.lines[..different])
}

/// Without joins and inserts, the numbers that those after them gave moved
/// up; where every line is a request.
fn moved_up(script: Script, differs: &impl Fn(&Script) -> bool) -> Script {
    let Some((first, rest)) = script.lines.split_first() else {
        return script;
    };
    let requests: Option<Vec<Request>> = rest.iter().map(|line| program::request(line)).collect();
    let told = |requests: &[Request]| {
        let lines = requests.iter().map(|request| request.to_string().into());
        script.with(&[vec![first.clone()], lines.collect()].concat())
    };
    match requests {
        // Lists that name several users above 63 are told with one.
        Some(requests) if differs(&told(&requests)) => {
            told(&check::smallest(&requests, 0, 0, |some| {
                differs(&told(some))
            }))
        }
        _ => script,
    }
}

/// Without any byte of a line, the last line first.
fn shorter_lines(mut script: Script, differs: &impl Fn(&Script) -> bool) -> Script {
    for at in (0..script.lines.len()).rev() {
        let with_line = |line: &[u8]| {
            let mut script = script.clone();
            script.lines[at] = line.to_vec();
            script
        };
        let line = fewer(&script.lines[at], |line| differs(&with_line(line)));
        script = with_line(&line);
    }
    script
}

#[cfg(test)]
mod tests {
    use super::*;

    #[test]
    fn scripts_as_commands() {
        let script = Script {
            lines: vec![b"delta".to_vec(), b"a'b\\c%d\r\0\xFF".to_vec()],
            ended: true,
        };
        assert_eq!(script.input(), b"delta\na'b\\c%d\r\0\xFF\n");
        let told = "printf 'delta\\na\\047b\\134c%%d\\015\\000\\377\\n' | target/bin/desk\n";
        assert_eq!(script.to_string(), told);
        let empty = Script {
            lines: vec![],
            ended: true,
        };
        assert_eq!(empty.input(), b"");
    }

    #[test]
    fn the_first_difference() {
        let expected = b"ok 2\n4 0 0\n1 0 0\nno 14\nno 4\n";
        let reply = |output: &[u8]| Reply {
            output: output.to_vec(),
            fault: None,
        };
        assert_eq!(Difference::of(&reply(expected), expected), None);
        for (output, request, kinds) in [
            (
                &b"ok 2\n4 0 0\n1 0 0\nno 14\nno 3\n"[..],
                3,
                ["no 3\n", "no 4\n"],
            ),
            (b"ok 2\n4 0 0\n1 0 0\nok 0\nno 4\n", 2, ["ok", "no 14\n"]),
            (b"ok 2\n4 0 0\n1 1 0\nno 14\nno 4\n", 1, ["a row", "a row"]),
            (b"ok 2\n4 0 0\n1 0 0\nno 14\nno 4", 3, ["no 4", "no 4\n"]),
            (b"ok 2\n4 0 0\n1 0 0\nno 14\n", 3, ["nothing", "no 4\n"]),
            (
                b"ok 2\n4 0 0\n1 0 0\nno 14\nno 4\n\n",
                4,
                ["an empty line", "nothing"],
            ),
        ] {
            let found = Difference::of(&reply(output), expected).unwrap();
            assert_eq!(
                (found.request, found.kinds),
                (request, kinds.map(String::from))
            );
        }
    }
}
