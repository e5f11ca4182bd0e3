//! The calls, what they are lent and what they answer, as both sides have
//! them.

use std::fmt;

use fenstubble_reference::bytes::WIDTHS;
use fenstubble_reference::lent::Tables;
use fenstubble_reference::refusal::Refusal;
use fenstubble_reference::sets::UserSet;

/// The bytes of a set: those of a row of inner vertices.
pub const SET: usize = WIDTHS[0];

/// The most orders that a request gives: those of a leave.
pub const MOST_ORDERS: usize = 4608;

/// A call with its numbers.
#[derive(Clone, Copy, Debug, PartialEq, Eq)]
pub enum Call {
    /// Check the tables.
    Check,
    /// Show that section of the book's bytes.
    Section(usize),
    /// Read the book's bytes into the tables.
    Read,
    /// Write the tables' book to the buffer.
    Write,
    /// Join.
    Join,
    /// Insert a list, lent as so many bytes: the set's as far as they go, then
    /// noise. The sides look at the bytes alone.
    Insert(u64, usize),
    /// Grant a resource to a user.
    Grant(u16, u16),
    /// Revoke a resource from a user.
    Revoke(u16, u16),
    /// Let a user leave.
    Leave(u16),
    /// The view of a user on a resource.
    View(u16, u16),
    /// How a user opens a resource.
    Open(u16, u16),
    /// Serve the request rows.
    Serve,
}

impl Call {
    /// Insert a list, lent as the bytes of a set and no more.
    pub fn insert(list: u64) -> Call {
        Call::Insert(list, SET)
    }

    /// The call's name.
    pub fn name(self) -> &'static str {
        match self {
            Call::Check => "check",
            Call::Section(_) => "section",
            Call::Read => "read",
            Call::Write => "write",
            Call::Join => "join",
            Call::Insert(..) => "insert",
            Call::Grant(..) => "grant",
            Call::Revoke(..) => "revoke",
            Call::Leave(_) => "leave",
            Call::View(..) => "view",
            Call::Open(..) => "open",
            Call::Serve => "serve",
        }
    }
}

impl fmt::Display for Call {
    /// As a line of the request program, where there is one.
    fn fmt(&self, f: &mut fmt::Formatter<'_>) -> fmt::Result {
        write!(f, "{}", self.name())?;
        match *self {
            Call::Section(k) => write!(f, " {k}"),
            Call::Leave(user) => write!(f, " {user}"),
            Call::Insert(list, _) => UserSet(list)
                .users()
                .try_for_each(|user| write!(f, " {}", user.0)),
            Call::Grant(a, b) | Call::Revoke(a, b) | Call::View(a, b) | Call::Open(a, b) => {
                write!(f, " {a} {b}")
            }
            _ => Ok(()),
        }
    }
}

/// What an accepted call gives besides what it writes.
#[derive(Clone, Copy, Debug, PartialEq, Eq)]
pub enum Given {
    /// Nothing.
    Nothing,
    /// A stretch of the book's bytes: start and length.
    Stretch(usize, usize),
    /// How many bytes were written.
    Length(usize),
    /// How many order rows were given.
    Orders(u16),
    /// The view's number.
    View(u16),
    /// How many rows the two chains have.
    Chains(u16, u16),
    /// How many order rows all requests used.
    Used(usize),
}

/// What a side answers: what the call gives, or a refusal; or something the
/// interface does not have.
pub type Answer = Result<Result<Given, Refusal>, Odd>;

/// An answer outside the interface: a result that is no refusal's number, or
/// cells that do not go with it.
#[derive(Clone, Debug, PartialEq, Eq)]
pub struct Odd {
    /// The result.
    pub code: u16,
    /// The cells, as text.
    pub cells: String,
}

/// What a call is lent; what it does not take is not touched. The head is at
/// least 11 numbers and changes in place; a shorter one is refused with 13,
/// like a table.
#[derive(Debug)]
pub struct Lending<'a> {
    /// The head.
    pub head: &'a mut [u16],
    /// The tables.
    pub tables: Tables<'a>,
    /// A book's bytes.
    pub book: &'a mut [u8],
    /// The buffer to write to.
    pub buffer: &'a mut [u8],
    /// The order list, or the list of an open.
    pub list: &'a mut [u16],
    /// The list of an insert, as a set's bytes; fewer are refused with 13.
    pub set: &'a mut [u8],
    /// The request rows of a serve.
    pub requests: &'a mut [u64],
    /// The answer rows of a serve.
    pub answers: &'a mut [u16],
}

/// A side of the comparison.
pub trait Side {
    /// Makes the call.
    fn make(call: Call, lent: &mut Lending) -> Answer;
}
