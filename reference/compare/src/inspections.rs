//! The check program: a book's bytes, the engine's program against the
//! reference program. The words of the line that says what is wrong are each
//! program's own; all else must be the same.

use std::cell::Cell as Counter;
use std::collections::BTreeMap;
use std::fmt;
use std::time::Instant;

use fenstubble_reference::book::{Book, Mode};
use fenstubble_reference::bytes::{self, Version, LARGEST as LARGEST_BOOK};
use fenstubble_reference::generate::{self, Random};
use fenstubble_reference::inspect;

use crate::books::{left, sample, some_book, LENGTHS, NUMBERS};
use crate::damage::{damaged, rich, some_kind, some_version, Which, KINDS};
use crate::memory::Filler;
use crate::process::{Process, Reply};
use crate::report::{random_of, Bounds, Report};
use crate::script::shown;
use crate::shrink::{smallest_bytes, version_in, Shown};
use crate::worlds::{large, LARGEST, NEARLY};

/// How many smaller inputs are tried at most.
const TRIES: usize = 1000;

/// Bytes of output that are more than any answer has.
const MOST: usize = 1 << 16;

/// What was compared.
#[derive(Clone, Debug, Default)]
pub struct Summary {
    /// Inputs.
    pub inputs: usize,
    /// Their bytes.
    pub bytes: usize,
    /// Those that are a sound book, by version.
    pub sound: [usize; 2],
    /// Sound books in which somebody has left.
    pub left: usize,
    /// Those in which the set of leavers is wrong.
    pub leavers: usize,
    /// Others, by what is wrong with them.
    pub numbers: BTreeMap<u8, usize>,
}

impl Summary {
    /// The numbers that were not met.
    pub fn never_met(&self) -> Vec<u8> {
        let mut never = NUMBERS.to_vec();
        never.retain(|number| !self.numbers.contains_key(number));
        never
    }
}

impl fmt::Display for Summary {
    fn fmt(&self, f: &mut fmt::Formatter<'_>) -> fmt::Result {
        write!(
            f,
            "{} inputs with {} bytes: no difference\nsound of version 1 {}, of version 2 {} ({} with \
             leavers), wrong leavers {}",
            self.inputs, self.bytes, self.sound[0], self.sound[1], self.left, self.leavers
        )?;
        for (number, count) in &self.numbers {
            write!(f, ", no {number} {count}")?;
        }
        writeln!(f)
    }
}

type Outcome = Result<(), Box<Report>>;

/// The cases that are the same for every seed, but for random books.
const FIXED: [fn(&mut Inspections, &mut Random) -> Outcome; 4] = [
    Inspections::short_inputs,
    Inspections::long_inputs,
    Inspections::large_books,
    Inspections::each_kind_of_damage,
];

/// Compares about so many inputs.
pub fn run(program: &Process, bounds: Bounds) -> Result<Summary, Box<Report>> {
    let since = Instant::now();
    let mut all = Inspections {
        program: program.clone(),
        seed: bounds.seed,
        case: bounds.first,
        summary: Summary::default(),
    };
    for case in bounds.first.. {
        all.case = case;
        let random = &mut random_of(bounds.seed, case);
        match FIXED.get(usize::try_from(case).unwrap_or(usize::MAX)) {
            Some(fixed) => fixed(&mut all, random)?,
            None if bounds.time.is_some_and(|time| since.elapsed() > time) => break,
            None => all.around_a_book(random)?,
        }
        if all.summary.inputs >= bounds.count {
            break;
        }
    }
    Ok(all.summary)
}

/// How the engine's program differs from the reference program on an input.
#[derive(Clone, Debug, PartialEq, Eq)]
struct Difference {
    /// The first words of both; smaller inputs keep them.
    kinds: [String; 2],
    text: String,
}

/// The first line of an output without its place.
fn kind(output: &[u8]) -> String {
    let first = output.split(|&byte| byte == b'\n').next();
    let first = String::from_utf8_lossy(first.unwrap_or_default());
    first.split(' ').take(2).collect::<Vec<_>>().join(" ")
}

/// Whether the outputs are the same as far as they are fixed: all of what is
/// said of a sound book; of others the first line, with one more behind it.
fn alike(engine: &[u8], reference: &[u8]) -> bool {
    if engine == reference {
        return true;
    }
    let lines =
        |output| -> Vec<&[u8]> { <[u8]>::split_inclusive(output, |&byte| byte == b'\n').collect() };
    match (&lines(engine)[..], &lines(reference)[..]) {
        ([first, second], [fixed, _]) => {
            first == fixed && second.len() > 1 && second.ends_with(b"\n")
        }
        _ => false,
    }
}

/// Both outputs from the first line on that differs.
fn told(engine: &[u8], reference: &[u8]) -> String {
    let newline =
        |output: &[u8], from: usize| output[from..].iter().position(|&byte| byte == b'\n');
    let mut from = 0;
    while let (Some(end), Some(other)) = (newline(engine, from), newline(reference, from)) {
        if end != other || engine[from..from + end] != reference[from..from + end] {
            break;
        }
        from += end + 1;
    }
    let (engine, reference) = (shown(&engine[from..]), shown(&reference[from..]));
    format!("from byte {from} on: engine {engine}, reference {reference}\n")
}

fn difference(reply: &Reply, given: &[u8]) -> Option<Difference> {
    let expected = inspect::report(given);
    let expected = expected.as_bytes();
    if reply.fault.is_none() && alike(&reply.output, expected) {
        return None;
    }
    let mut kinds = [kind(&reply.output), kind(expected)];
    let mut text = told(&reply.output, expected);
    if let Some(fault) = &reply.fault {
        text += &format!("the engine's program: {fault}\n");
        kinds[0] += fault;
    }
    Some(Difference { kinds, text })
}

struct Inspections {
    program: Process,
    seed: u64,
    case: u64,
    summary: Summary,
}

impl Inspections {
    /// Compares one input, which comes in pieces of so many bytes.
    fn input(&mut self, given: &[u8], piece: usize) -> Outcome {
        self.summary.inputs += 1;
        self.summary.bytes += given.len();
        match bytes::read(given) {
            Ok(book) => {
                let version = version_in(given);
                self.summary.sound[usize::from(version == Version::Two)] += 1;
                self.summary.left += usize::from(!book.book().leavers.is_empty());
            }
            Err(fault) => {
                *self.summary.numbers.entry(fault.number()).or_default() += 1;
                let new = given.len() > 16 && version_in(given) == Version::Two;
                let leavers = (fault.number(), fault.place()) == (31, 17);
                self.summary.leavers += usize::from(new && leavers);
            }
        }
        match self.differ(given, piece) {
            Some(found) => Err(self.report(given, piece, found)),
            None => Ok(()),
        }
    }

    fn differ(&self, given: &[u8], piece: usize) -> Option<Difference> {
        difference(&self.program.answer(given, piece, MOST), given)
    }

    /// The report of a difference with the smallest input found.
    fn report(&self, given: &[u8], piece: usize, found: Difference) -> Box<Report> {
        let tries = Counter::new(TRIES);
        let smallest = smallest_bytes(given, |bytes| {
            tries.set(tries.get().saturating_sub(1));
            let again = (tries.get() > 0).then(|| self.differ(bytes, piece));
            again
                .flatten()
                .is_some_and(|again| again.kinds == found.kinds)
        });
        let again = match self.differ(&smallest, piece) {
            Some(again) => again.text,
            None => "run again, it does not differ\n".into(),
        };
        Box::new(Report {
            family: "inspections",
            seed: self.seed,
            case: self.case,
            call: format!("an input of {} bytes in pieces of {piece}", given.len()),
            text: found.text,
            smallest: format!("{}{again}", Shown(&smallest)),
        })
    }

    /// No bytes at all, fewer than a header, a header, and up to a byte more
    /// than the empty book has, of both versions; and header and leavers with a
    /// byte changed.
    fn short_inputs(&mut self, random: &mut Random) -> Outcome {
        let most = Version::Two.leavers().end + 1;
        for (mode, version) in [(Mode::Delta, Version::One), (Mode::Full, Version::Two)] {
            let mut empty = bytes::write_as(&Book::empty(mode), version);
            empty.resize(most, 0);
            let whole = bytes::write_as(&left(sample(mode)), version);
            for length in 0..=most {
                self.input(&empty[..length], some_piece(random))?;
                self.input(&whole[..length], some_piece(random))?;
                self.input(&vec![b'\n'; length], some_piece(random))?;
            }
            self.input(&whole, some_piece(random))?;
            for at in 0..version.leavers().end {
                for value in [0, 1, 2, 65, 255] {
                    let mut bytes = whole.clone();
                    bytes[at] = value;
                    self.input(&bytes, some_piece(random))?;
                }
            }
        }
        Ok(())
    }

    /// Inputs around the length of the largest book, around those that 16 bits
    /// hold, and longer, in pieces of several sizes.
    fn long_inputs(&mut self, random: &mut Random) -> Outcome {
        for length in LENGTHS {
            let mut bytes = bytes::write_as(&sample(Mode::Delta), some_version(random));
            bytes.extend(Filler::any(random).bytes(length - bytes.len()));
            for piece in [512, 4095, 4096, 4097, LARGEST_BOOK, 65_536, length] {
                self.input(&bytes, piece)?;
            }
            for (at, value) in [(0, 0), (4, 9), (5, 9), (6, 99), (16, 0xEE)] {
                let mut bytes = bytes.clone();
                bytes[at] = value;
                self.input(&bytes, some_piece(random).max(64))?;
            }
        }
        Ok(())
    }

    /// The largest book and a nearly largest one, sound, a byte short, a byte
    /// long, and damaged.
    fn large_books(&mut self, random: &mut Random) -> Outcome {
        for size in [LARGEST, NEARLY] {
            let book = large(&size).book.into_book();
            let whole = bytes::write(&book);
            for piece in [17, 4096, 10_000, 65_536] {
                self.input(&whole, piece)?;
            }
            self.input(&whole[..whole.len() - 1], 4096)?;
            self.input(&[&whole[..], b"\n"].concat(), 4096)?;
            self.input(&bytes::write_as(&book, Version::One), 4096)?;
            for kind in KINDS {
                let which = Which::some(random);
                let version = some_version(random);
                if let Some(bytes) = damaged(random, &book, &[(kind, which)], version) {
                    self.input(&bytes, some_piece(random).max(64))?;
                }
            }
        }
        Ok(())
    }

    /// Each kind of damage at the first row, one in the middle and the last.
    fn each_kind_of_damage(&mut self, random: &mut Random) -> Outcome {
        for kind in KINDS {
            for which in Which::ENDS {
                for version in [Version::One, Version::Two, Version::Two] {
                    let book = rich(random);
                    if let Some(bytes) = damaged(random, &book, &[(kind, which)], version) {
                        self.input(&bytes, some_piece(random))?;
                    }
                }
            }
        }
        Ok(())
    }

    /// A random sound book and some that is wrong with it.
    fn around_a_book(&mut self, random: &mut Random) -> Outcome {
        let book = some_book(random);
        let version = some_version(random);
        let whole = bytes::write_as(&book, version);
        self.input(&whole, some_piece(random))?;
        for _ in 0..3 {
            let kinds = [some_kind(random), some_kind(random)];
            let some = random.between(1, 2);
            if let Some(bytes) = damaged(random, &book, &kinds[..some], version) {
                self.input(&bytes, some_piece(random))?;
            }
        }
        let damaged = generate::damage_bytes(random, &whole);
        self.input(&damaged, some_piece(random))
    }
}

/// The size of the pieces of an input.
fn some_piece(random: &mut Random) -> usize {
    [1, 2, 16, 17, 18, 100, 4096, 1 << 20][random.below(8)]
}

#[cfg(test)]
mod tests {
    use super::*;

    #[test]
    fn what_is_alike() {
        let fault = b"no 24 3\nsome words\n";
        for same in [&b"no 24 3\nsome words\n"[..], b"no 24 3\nother\n"] {
            assert!(alike(same, fault));
        }
        for other in [
            &b""[..],
            b"no 24 3\n",
            b"no 24 3\n\n",
            b"no 24 3\nother",
            b"no 24 4\nsome words\n",
            b"no 24 3\nsome words\nmore\n",
            b"no 24 3\nsome words\n\n",
            b"\nno 24 3\n",
        ] {
            assert!(!alike(other, fault), "{}", other.escape_ascii());
        }
        let sound = inspect::report(&bytes::write(&Book::empty(Mode::Full)));
        assert!(alike(sound.as_bytes(), sound.as_bytes()));
        let cut = sound.trim_end();
        assert!(!alike(cut.as_bytes(), sound.as_bytes()));
        assert!(!alike(fault, sound.as_bytes()));
    }
}
