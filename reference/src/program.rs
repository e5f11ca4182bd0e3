//! The request program: request lines in, answer lines out.
//!
//! Input of any size goes through two fixed buffers, one of the stream and
//! one of the line; of a line longer than 512 bytes nothing is kept.

use std::io::{self, ErrorKind, Read, Write};

use crate::book::{Mode, SoundBook};
use crate::numbers::{Resource, User};
use crate::refusal::Refusal;
use crate::requests::{Answer, List, Request};
use crate::sets::UserSet;

/// Most bytes of a line before its newline.
pub const LONGEST_LINE: usize = 512;

/// Bytes taken from the input, and gathered for the output, at a time.
const CHUNK: usize = 1 << 16;

/// Runs the program to the end of its input. Answers are flushed whenever
/// more input has to be waited for.
pub fn run(input: impl Read, output: impl Write) -> io::Result<()> {
    let mut lines = Lines::new(input);
    let mut output = Output::new(output);
    let mode = match lines.next(&mut output)? {
        Some(Line::Whole(b"delta")) => Mode::Delta,
        Some(Line::Whole(b"full")) => Mode::Full,
        _ => {
            output.refuse(Refusal::MALFORMED)?;
            return output.flush();
        }
    };
    let mut book = SoundBook::empty(mode);
    while let Some(line) = lines.next(&mut output)? {
        let request = match line {
            Line::Whole(line) => request(line),
            Line::TooLong => None,
        };
        match request {
            Some(request) => match book.answer(&request, usize::MAX) {
                Ok(answer) => output.answer(&answer)?,
                Err(no) => output.refuse(no)?,
            },
            None => output.refuse(Refusal::MALFORMED)?,
        }
    }
    output.flush()
}

/// The output, gathered.
struct Output<W> {
    to: W,
    gathered: Vec<u8>,
}

impl<W: Write> Output<W> {
    fn new(to: W) -> Output<W> {
        Output {
            to,
            gathered: Vec::with_capacity(CHUNK),
        }
    }

    fn answer(&mut self, answer: &Answer) -> io::Result<()> {
        self.gathered.extend_from_slice(b"ok ");
        self.number(answer.count());
        self.gathered.push(b'\n');
        match answer {
            Answer::Orders(orders) => {
                for order in orders {
                    let [kind, a, b] = order.row();
                    self.number(usize::from(kind));
                    self.gathered.push(b' ');
                    self.number(usize::from(a));
                    self.gathered.push(b' ');
                    self.number(usize::from(b));
                    self.gathered.push(b'\n');
                }
            }
            Answer::Chains(chains) => {
                let inner = chains.inner.iter().map(|row| (b"i ", row));
                let outer = chains.outer.iter().map(|row| (b"o ", row));
                for (layer, &row) in inner.chain(outer) {
                    self.gathered.extend_from_slice(layer);
                    self.number(usize::from(row));
                    self.gathered.push(b'\n');
                }
            }
        }
        self.flush_if_full()
    }

    fn refuse(&mut self, no: Refusal) -> io::Result<()> {
        writeln!(self.gathered, "{no}")?;
        self.flush_if_full()
    }

    /// A number in decimal.
    fn number(&mut self, number: usize) {
        let mut digits = [0; 20];
        let mut at = digits.len();
        let mut left = number;
        loop {
            at -= 1;
            digits[at] = b'0' + (left % 10) as u8;
            left /= 10;
            if left == 0 {
                break;
            }
        }
        self.gathered.extend_from_slice(&digits[at..]);
    }

    fn flush_if_full(&mut self) -> io::Result<()> {
        if self.gathered.len() >= CHUNK {
            self.flush()?;
        }
        Ok(())
    }

    fn flush(&mut self) -> io::Result<()> {
        self.to.write_all(&self.gathered)?;
        self.gathered.clear();
        self.to.flush()
    }
}

/// A line of the input, without its newline.
enum Line<'a> {
    Whole(&'a [u8]),
    TooLong,
}

/// The lines of the input. They end at byte 0A only; the last may lack it.
struct Lines<R> {
    from: R,
    chunk: Vec<u8>,
    /// The part of the chunk not yet used.
    start: usize,
    end: usize,
    /// The line so far.
    line: Vec<u8>,
    /// Whether the rest of a line that was too long is still to come.
    skipping: bool,
}

impl<R: Read> Lines<R> {
    fn new(from: R) -> Lines<R> {
        Lines {
            from,
            chunk: vec![0; CHUNK],
            start: 0,
            end: 0,
            line: Vec::with_capacity(LONGEST_LINE),
            skipping: false,
        }
    }

    /// The next line, if there is one. A line that is too long is told as
    /// soon as it is known to be.
    fn next<W: Write>(&mut self, output: &mut Output<W>) -> io::Result<Option<Line<'_>>> {
        self.line.clear();
        loop {
            if self.start == self.end && !self.fill(output)? {
                let last = !self.line.is_empty();
                return Ok(last.then_some(Line::Whole(&self.line)));
            }
            let unused = &self.chunk[self.start..self.end];
            let newline = unused.iter().position(|&byte| byte == b'\n');
            let part = &unused[..newline.unwrap_or(unused.len())];
            self.start += part.len() + usize::from(newline.is_some());
            if self.skipping {
                self.skipping = newline.is_none();
                continue;
            }
            if self.line.len() + part.len() > LONGEST_LINE {
                self.skipping = newline.is_none();
                return Ok(Some(Line::TooLong));
            }
            self.line.extend_from_slice(part);
            if newline.is_some() {
                return Ok(Some(Line::Whole(&self.line)));
            }
        }
    }

    /// Takes the next chunk; whether there was one.
    fn fill<W: Write>(&mut self, output: &mut Output<W>) -> io::Result<bool> {
        output.flush()?;
        loop {
            match self.from.read(&mut self.chunk) {
                Ok(count) => {
                    self.start = 0;
                    self.end = count;
                    return Ok(count > 0);
                }
                Err(error) if error.kind() == ErrorKind::Interrupted => {}
                Err(error) => return Err(error),
            }
        }
    }
}

/// The request a line asks for; none if it is malformed.
pub fn request(line: &[u8]) -> Option<Request> {
    // The rest starts at the space, so that `insert` and `insert ` differ.
    let (word, rest) = line.split_at(line.iter().position(|&b| b == b' ').unwrap_or(line.len()));
    match word {
        b"join" => rest.is_empty().then_some(Request::Join),
        b"insert" => list(rest).map(Request::Insert),
        b"grant" => two(rest).map(|(r, u)| Request::Grant(Resource::given(r), User::given(u))),
        b"revoke" => two(rest).map(|(r, u)| Request::Revoke(Resource::given(r), User::given(u))),
        b"leave" => one(rest).map(|u| Request::Leave(User::given(u))),
        b"open" => two(rest).map(|(u, r)| Request::Open(User::given(u), Resource::given(r))),
        _ => None,
    }
}

/// The list of an insert: numbers that all differ.
fn list(rest: &[u8]) -> Option<List> {
    let mut set = UserSet::EMPTY;
    let mut beyond = Vec::new();
    let mut rest = rest;
    while !rest.is_empty() {
        let number;
        (number, rest) = next_number(rest)?;
        if number < 64 {
            let user = User::given(number);
            if set.names(user) {
                return None;
            }
            set = set.with(user);
        } else {
            if beyond.contains(&number) {
                return None;
            }
            beyond.push(number);
        }
    }
    Some(List {
        set,
        beyond: !beyond.is_empty(),
    })
}

/// Exactly one number.
fn one(rest: &[u8]) -> Option<u64> {
    let (number, rest) = next_number(rest)?;
    rest.is_empty().then_some(number)
}

/// Exactly two numbers.
fn two(rest: &[u8]) -> Option<(u64, u64)> {
    let (first, rest) = next_number(rest)?;
    let (second, rest) = next_number(rest)?;
    rest.is_empty().then_some((first, second))
}

/// A space and a number at the start of the stretch, and what comes after:
/// 1 to 5 digits, no leading zero, then a space or the end.
fn next_number(stretch: &[u8]) -> Option<(u64, &[u8])> {
    let (b' ', stretch) = stretch.split_first()? else {
        return None;
    };
    let end = stretch
        .iter()
        .position(|&b| b == b' ')
        .unwrap_or(stretch.len());
    let (digits, rest) = stretch.split_at(end);
    if digits.is_empty() || digits.len() > 5 || (digits.len() > 1 && digits[0] == b'0') {
        return None;
    }
    let mut number = 0;
    for digit in digits {
        if !digit.is_ascii_digit() {
            return None;
        }
        number = number * 10 + u64::from(digit - b'0');
    }
    Some((number, rest))
}
