//! The engine: the C interface of `include/fenstubble.h`, made safe over
//! slices.
//!
//! Everything is lent as writable memory, also what a call only reads: so a
//! write where none belongs can be seen and is not undefined.

#![allow(unsafe_code)]

use std::fmt::Debug;

use fenstubble_reference::refusal::{Refusal, View};

use crate::side::{Answer, Call, Given, Lending, Odd, Side};

/// The declarations, in the order and the words of the header: nothing checks
/// them against the library.
pub(crate) mod c {
    /// Declares calls whose five tables, all `const` or all `mut`, stand
    /// between the arguments before them and those after.
    macro_rules! declare {
        ($(fn $name:ident($($before:ident: $b:ty),*; $pointer:tt tables; $($after:ident: $a:ty),*);)*) => {
            extern "C" {
                $(pub fn $name(
                    $($before: $b,)*
                    inner_vertices: *$pointer u8, inner_vertices_len: usize,
                    inner_tokens: *$pointer u8, inner_tokens_len: usize,
                    outer_vertices: *$pointer u8, outer_vertices_len: usize,
                    outer_tokens: *$pointer u8, outer_tokens_len: usize,
                    resources: *$pointer u8, resources_len: usize,
                    $($after: $a),*
                ) -> u16;)*
            }
        };
    }

    declare! {
        fn fenstubble_check(head: *const u16, head_len: usize; const tables;);
        fn fenstubble_read(book: *const u8, book_len: usize, head: *mut u16, head_len: usize; mut tables; place: *mut usize);
        fn fenstubble_write(head: *const u16, head_len: usize; const tables; buffer: *mut u8, buffer_len: usize, length: *mut usize);
        fn fenstubble_join(head: *mut u16, head_len: usize; mut tables; orders: *mut u16, orders_len: usize, count: *mut u16);
        fn fenstubble_insert(head: *mut u16, head_len: usize; mut tables; orders: *mut u16, orders_len: usize, count: *mut u16, list: *const u8, list_len: usize);
        fn fenstubble_grant(head: *mut u16, head_len: usize; mut tables; orders: *mut u16, orders_len: usize, count: *mut u16, resource: u16, user: u16);
        fn fenstubble_revoke(head: *mut u16, head_len: usize; mut tables; orders: *mut u16, orders_len: usize, count: *mut u16, resource: u16, user: u16);
        fn fenstubble_leave(head: *mut u16, head_len: usize; mut tables; orders: *mut u16, orders_len: usize, count: *mut u16, user: u16);
        fn fenstubble_view(head: *const u16, head_len: usize; const tables; user: u16, resource: u16, view: *mut u16);
        fn fenstubble_open(head: *const u16, head_len: usize; const tables; user: u16, resource: u16, list: *mut u16, list_len: usize, inner: *mut u16, outer: *mut u16);
        fn fenstubble_serve(head: *mut u16, head_len: usize; mut tables; requests: *const u64, requests_len: usize, answers: *mut u16, answers_len: usize, orders: *mut u16, orders_len: usize, used: *mut usize);
    }

    extern "C" {
        pub fn fenstubble_section(
            book: *const u8,
            book_len: usize,
            k: usize,
            start: *mut usize,
            length: *mut usize,
            place: *mut usize,
        ) -> u16;
        pub fn fenstubble_version() -> u32;
    }
}

/// A cell, and what stands in it before a call, so that one left alone is seen:
/// in an accepted call none is, in a refused one each but that of the place. No
/// byte of it is 0, so that one that is not written whole is seen too.
trait Cell: Copy + Debug + PartialEq {
    const LEFT: Self;
}

impl Cell for u16 {
    const LEFT: u16 = 0xA7A7;
}

impl Cell for usize {
    const LEFT: usize = usize::MAX / 0xFF * 0xA7;
}

/// Makes a C call with head and tables in their place among the arguments,
/// each as pointer and length.
macro_rules! c {
    ($name:ident($($before:expr),*; $lent:ident; $($after:expr),*)) => {
        // SAFETY: each pointer and its length come from a slice that is
        // borrowed for the call and overlaps no other, each cell from a
        // local; an empty slice's pointer is aligned and not null.
        unsafe {
            c::$name(
                $($before,)*
                $lent.head.as_mut_ptr(), $lent.head.len(),
                $lent.tables.inner_vertices.as_mut_ptr(), $lent.tables.inner_vertices.len(),
                $lent.tables.inner_tokens.as_mut_ptr(), $lent.tables.inner_tokens.len(),
                $lent.tables.outer_vertices.as_mut_ptr(), $lent.tables.outer_vertices.len(),
                $lent.tables.outer_tokens.as_mut_ptr(), $lent.tables.outer_tokens.len(),
                $lent.tables.resources.as_mut_ptr(), $lent.tables.resources.len(),
                $($after),*
            )
        }
    };
}

/// The engine's side.
#[derive(Clone, Copy, Debug)]
pub struct Engine;

impl Side for Engine {
    fn make(call: Call, lent: &mut Lending) -> Answer {
        let (list, list_len) = (lent.list.as_mut_ptr(), lent.list.len());
        let (book, book_len) = (lent.book.as_mut_ptr(), lent.book.len());
        // The cells; a call has one or two of either width, and perhaps one for
        // the place.
        let (mut a, mut b) = (u16::LEFT, u16::LEFT);
        let (mut start, mut length, mut place) = (usize::LEFT, usize::LEFT, usize::LEFT);
        let (cell, second) = (&raw mut a, &raw mut b);
        let code = match call {
            Call::Check => c!(fenstubble_check(; lent;)),
            // SAFETY: as for the calls with tables.
            Call::Section(k) => unsafe {
                let (start, length, place) = (&raw mut start, &raw mut length, &raw mut place);
                c::fenstubble_section(book, book_len, k, start, length, place)
            },
            Call::Read => c!(fenstubble_read(book, book_len; lent; &raw mut place)),
            Call::Write => {
                let (buffer, buffer_len) = (lent.buffer.as_mut_ptr(), lent.buffer.len());
                c!(fenstubble_write(; lent; buffer, buffer_len, &raw mut length))
            }
            Call::Join => c!(fenstubble_join(; lent; list, list_len, cell)),
            Call::Insert(..) => {
                let (set, set_len) = (lent.set.as_mut_ptr(), lent.set.len());
                c!(fenstubble_insert(; lent; list, list_len, cell, set, set_len))
            }
            Call::Grant(r, u) => c!(fenstubble_grant(; lent; list, list_len, cell, r, u)),
            Call::Revoke(r, u) => c!(fenstubble_revoke(; lent; list, list_len, cell, r, u)),
            Call::Leave(u) => c!(fenstubble_leave(; lent; list, list_len, cell, u)),
            Call::View(u, r) => c!(fenstubble_view(; lent; u, r, cell)),
            Call::Open(u, r) => c!(fenstubble_open(; lent; u, r, list, list_len, cell, second)),
            Call::Serve => {
                let (requests, requests_len) = (lent.requests.as_mut_ptr(), lent.requests.len());
                let (answers, answers_len) = (lent.answers.as_mut_ptr(), lent.answers.len());
                c!(fenstubble_serve(; lent; requests, requests_len, answers, answers_len, list, list_len, &raw mut length))
            }
        };
        let told = Told { code, place: None };
        let placed = Told {
            code,
            place: Some(place),
        };
        match call {
            Call::Check => told.answer([0u16; 0], |[]| Given::Nothing),
            Call::Read => placed.answer([0u16; 0], |[]| Given::Nothing),
            Call::Section(_) => placed.answer([start, length], |[a, b]| Given::Stretch(a, b)),
            Call::Write => told.answer([length], |[n]| Given::Length(n)),
            Call::View(..) => told.answer([a], |[n]| Given::View(n)),
            Call::Open(..) => told.answer([a, b], |[a, b]| Given::Chains(a, b)),
            Call::Serve => told.answer([length], |[n]| Given::Used(n)),
            _ => told.answer([a], |[n]| Given::Orders(n)),
        }
    }
}

/// The number of the library's version.
pub fn version() -> u32 {
    // SAFETY: it takes nothing.
    unsafe { c::fenstubble_version() }
}

/// The result of a call, and what it left in the cell for the place, if it has
/// one.
#[derive(Clone, Copy, Debug)]
struct Told {
    code: u16,
    place: Option<usize>,
}

impl Told {
    /// The refusal, if it is one that the call can give. Only those with a
    /// place may leave another than 0.
    fn refusal(self) -> Option<Refusal> {
        let view = match (self.code % 256, self.code / 256) {
            (11, 1) => Some(View::SelLocked),
            (11, 2) => Some(View::BelLocked),
            (11, 3) => Some(View::Locked),
            (11, _) => return None,
            (_, 0) => None,
            _ => return None,
        };
        let number = (self.code % 256) as u8;
        match (number, self.place) {
            (1..=13 | 15, None | Some(0)) => Some(Refusal {
                number,
                view,
                place: None,
            }),
            (20..=24 | 31..=38, Some(place)) => Some(Refusal::misread(number, place)),
            _ => None,
        }
    }

    /// The answer, with the other cells, which a refusal leaves alone.
    fn answer<T: Cell, const N: usize>(
        self,
        cells: [T; N],
        given: impl FnOnce([T; N]) -> Given,
    ) -> Answer {
        match self.refusal() {
            _ if self.code == 0 && self.place.is_none_or(|place| place == 0) => {
                Ok(Ok(given(cells)))
            }
            Some(no) if cells == [T::LEFT; N] => Ok(Err(no)),
            _ => Err(Odd {
                code: self.code,
                cells: match self.place {
                    Some(place) => format!("{cells:?} and place {place}"),
                    None => format!("{cells:?}"),
                },
            }),
        }
    }
}

#[cfg(test)]
mod tests {
    use super::*;

    const LEFT: u16 = u16::LEFT;

    #[test]
    fn results_and_cells_that_are_no_answer() {
        let answer = |code, cell: u16| {
            let told = Told { code, place: None };
            told.answer([cell], |[n]| Given::Orders(n))
        };
        assert_eq!(answer(0, 7), Ok(Ok(Given::Orders(7))));
        assert_eq!(answer(12, LEFT), Ok(Err(Refusal::UNSOUND)));
        assert_eq!(answer(15, LEFT), Ok(Err(Refusal::HAS_LEFT)));
        for (view, number) in [
            (View::SelLocked, 1),
            (View::BelLocked, 2),
            (View::Locked, 3),
        ] {
            assert_eq!(
                answer(11 + 256 * number, LEFT),
                Ok(Err(Refusal::closed(view)))
            );
        }
        for code in [
            11,
            14,
            16,
            20,
            24,
            31,
            38,
            256,
            12 + 256,
            11 + 4 * 256,
            65535,
        ] {
            assert!(answer(code, LEFT).is_err(), "{code}");
        }
        for cell in [0, 1, 12] {
            assert!(answer(12, cell).is_err(), "{cell}");
        }
    }

    #[test]
    fn results_and_places_that_are_no_answer() {
        let answer = |code, place| {
            let told = Told {
                code,
                place: Some(place),
            };
            told.answer([u16::LEFT], |[n]| Given::Orders(n))
        };
        // Accepted, or refused without a place: the cell takes 0.
        for code in [0, 1, 13] {
            assert!(answer(code, 0).is_ok(), "{code}");
            for place in [1, 5, 65535, usize::LEFT] {
                assert!(answer(code, place).is_err(), "{code} {place}");
            }
        }
        for code in (20..=24).chain(31..=38) {
            for place in [0, 17, 65535, 70_000] {
                let no = Refusal::misread(code as u8, place);
                assert_eq!(answer(code, place), Ok(Err(no)));
            }
        }
        for code in [14, 16, 19, 25, 30, 39, 255, 20 + 256, 31 + 256] {
            assert!(answer(code, 0).is_err(), "{code}");
        }
    }
}
