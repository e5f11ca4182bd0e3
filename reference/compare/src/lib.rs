//! Compares the engine's static library with the model in `reference/`: the
//! same call on copies of the same lent memory, then the answer, the cells
//! and every byte of what was lent, with canaries around each lent stretch.
//!
//! | module | holds |
//! |---|---|
//! | [`side`] | the calls, what they are lent and what they answer |
//! | [`engine`] | the C interface, made safe |
//! | [`model`] | the reference program's lent face in the same shape |
//! | [`damage`] | books damaged at a chosen row, rule by rule |
//! | [`limits`] | books at, below and past each limit |
//! | [`memory`] | lent stretches with canaries |
//! | [`compare`] | one call on both sides; what differs; tallies |
//! | [`shrink`] | smaller cases that still differ |
//! | [`report`] | a difference with its seed and smallest case; bounded runs |
//! | [`books`] | check, section, read and write |
//! | [`locks`] | answers that show in which order the orders stand |
//! | [`requests`] | join, insert, grant, revoke, leave, view and open; serve |
//! | [`process`] | a program of the engine as a process |
//! | [`lines`] | lines of scripts, fine and malformed |
//! | [`script`] | one script on both programs; smaller scripts that still differ |
//! | [`scripts`] | whole scripts, program against program |
//! | [`inspections`] | a book's bytes, check program against check program |
//! | [`worlds`] | the books that are measured |
//! | [`bench`], [`clock`] | the measurements; processor time |
//! | [`stack`] | the stack that a call takes |
//! | [`command`] | the arguments of the programs |
//! | `standin` | a stand-in for the library, with faults (feature `self-test`) |

#![deny(unsafe_code)]
#![warn(missing_docs)]

pub mod bench;
pub mod books;
pub mod clock;
pub mod command;
pub mod compare;
pub mod damage;

pub mod engine;
pub mod inspections;
pub mod limits;
pub mod lines;
pub mod locks;
pub mod memory;
pub mod model;
pub mod process;
pub mod report;
pub mod requests;
pub mod script;
pub mod scripts;
pub mod shrink;
pub mod side;
pub mod stack;
#[cfg(feature = "self-test")]
pub mod standin;
pub mod worlds;
