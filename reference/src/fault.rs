//! What is wrong with bytes that are no book: a number, a place, and words.

use std::fmt;

use crate::book::Section;
use crate::bytes::{HEAD_LENGTH, MODE_PLACE, VERSION_PLACE};
use crate::refusal::Refusal;
use crate::sound::{At, Broken, Limited, Rule};

/// The first thing that is wrong with bytes.
#[derive(Clone, Copy, Debug, PartialEq, Eq)]
pub enum Fault {
    /// 20: the mark is another.
    Mark,
    /// 21: the version is this one.
    Version(u16),
    /// 22: the mode is this one.
    Mode(u16),
    /// 23: this count, which starts at this byte, is over its limit.
    Count {
        /// The count.
        limited: Limited,
        /// Its byte.
        place: usize,
    },
    /// 24: another length than a book with this header has.
    Length {
        /// How many bytes there are.
        found: usize,
        /// How many there should be; none where there is no whole header.
        asked: Option<usize>,
    },
    /// 31 to 38: a rule is broken, at this place.
    Broken {
        /// The rule, and what breaks it.
        broken: Broken,
        /// Where that starts.
        place: usize,
    },
}

impl Fault {
    /// Its number.
    pub fn number(self) -> u8 {
        match self {
            Fault::Mark => 20,
            Fault::Version(_) => 21,
            Fault::Mode(_) => 22,
            Fault::Count { .. } => 23,
            Fault::Length { .. } => 24,
            Fault::Broken { broken, .. } => 30 + broken.rule.number(),
        }
    }

    /// The place told with the number.
    pub fn place(self) -> usize {
        match self {
            Fault::Mark => 0,
            Fault::Version(_) => VERSION_PLACE,
            Fault::Mode(_) => MODE_PLACE,
            Fault::Count { place, .. } | Fault::Broken { place, .. } => place,
            Fault::Length { found, .. } => found,
        }
    }
}

impl From<Fault> for Refusal {
    fn from(fault: Fault) -> Refusal {
        Refusal::misread(fault.number(), fault.place())
    }
}

impl fmt::Display for Fault {
    /// What is wrong, in words.
    fn fmt(&self, f: &mut fmt::Formatter<'_>) -> fmt::Result {
        match *self {
            Fault::Mark => write!(f, "a book starts with the bytes 54 4B 42"),
            Fault::Version(version) => write!(f, "the version is {version}, neither 1 nor 2"),
            Fault::Mode(mode) => write!(f, "the mode is {mode}, neither 0 nor 1"),
            Fault::Count { limited, .. } => {
                let Limited { name, count, most } = limited;
                write!(f, "{name}: {count}, at most {most} can be")
            }
            Fault::Length { found, asked } => match asked {
                Some(asked) => write!(f, "{found} bytes, a book with this header has {asked}"),
                None => write!(f, "{found} bytes, the header alone has {HEAD_LENGTH}"),
            },
            Fault::Broken { broken, .. } => match broken.at {
                At::Leavers => write!(
                    f,
                    "the set of leavers names somebody who has not joined (S1)"
                ),
                At::Row(section, row) => {
                    let name = name(section);
                    write!(f, "row {row} of the {name} {}", told(broken.rule))
                }
                At::Missing => write!(f, "somebody who has joined has no own vertex (S2)"),
            },
        }
    }
}

fn name(section: Section) -> &'static str {
    match section {
        Section::InnerVertices => "inner vertices",
        Section::InnerTokens => "inner tokens",
        Section::OuterVertices => "outer vertices",
        Section::OuterTokens => "outer tokens",
        Section::Resources => "folders",
    }
}

/// What a row does that breaks the rule.
fn told(rule: Rule) -> &'static str {
    match rule {
        Rule::S1 => "has a kind, number or set that can not be, or lists a leaver (S1)",
        Rule::S2 => "is an empty set, or a token into an own vertex (S2)",
        Rule::S3 => "has a set that is there before (S3)",
        Rule::S4 => "does not lead to a larger set around its own (S4)",
        Rule::S5 => "is not made of what leads to it (S5)",
        Rule::S6 => "lets nobody new in, or is there before (S6)",
        Rule::S7 => "lists somebody who does not hold its inner key (S7)",
        Rule::S8 => "does not have the outer lock that its list asks for (S8)",
    }
}
