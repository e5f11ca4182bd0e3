//! A reference model of the two-layer book: who may read which folder, and
//! the two graphs of keys and tokens that enforce it.
//!
//! It is written from the rules alone, in the plainest form that is still
//! reasonably fast, so that another engine can be compared with it. Nothing
//! here is shared with any other engine.
//!
//! | module | holds |
//! |---|---|
//! | [`numbers`] | user, resource, inner and outer vertex numbers, kept apart |
//! | [`sets`] | sets of users |
//! | [`book`] | the tables, their limits, the [`Head`](book::Head) |
//! | [`mod@derive`] | what a user derives by tokens and hashing; views |
//! | [`sound`] | the rules S1 to S8, and where one is broken first |
//! | [`requests`] | join, insert, grant, revoke, leave, and their orders |
//! | [`open`] | the chains of an open folder |
//! | [`refusal`] | the numbers of a no |
//! | [`bytes`] | the book as bytes, its sections |
//! | [`fault`] | what is wrong with bytes that are no book |
//! | [`lent`] | the same calls over tables lent as bytes |
//! | [`program`] | the request program |
//! | [`inspect`] | the check program |
//! | [`host`] | a host that only obeys orders, with toy keys |
//! | [`stops`] | that host stopped in the middle of a request, and going on |
//! | [`generate`] | random sound books, damaged books and requests |
//! | [`check`] | random runs that verify every step |

#![forbid(unsafe_code)]
#![warn(missing_docs)]

pub mod book;
pub mod bytes;
pub mod check;
pub mod derive;
pub mod fault;
pub mod generate;
pub mod host;
pub mod inspect;
pub mod lent;
pub mod numbers;
pub mod open;
pub mod program;
pub mod refusal;
pub mod requests;
pub mod sets;
pub mod sound;
pub mod stops;
