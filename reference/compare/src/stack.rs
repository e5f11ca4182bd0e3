//! How much stack a C call takes: it is made on a stack of its own, which is
//! painted before; what is not paint afterwards is what it took. x86-64 alone.

#![allow(unsafe_code)]

use std::arch::asm;
use std::slice::from_raw_parts;

use crate::compare::compare;
use crate::engine::c;
use crate::memory::Lent;
use crate::side::{Call, Lending};

/// The bytes of the stack, many times what a call takes.
const SIZE: usize = 1 << 20;
/// Two paints, since a byte of the call's own may look like one of them.
const PAINTS: [u8; 2] = [0xA5, 0x5A];

/// The bytes of its caller's stack that a call takes: the arguments that stand
/// there, the return address, and all down to the lowest byte that is written.
/// None for a call that is refused.
pub fn taken(call: Call, lent: &Lent) -> Option<usize> {
    let done = match compare(call, lent) {
        Ok(done) => done,
        Err(found) => panic!("the sides differ on {call}: {}", found.text),
    };
    done.answer.ok()?;
    let depths = PAINTS.map(|paint| {
        let mut copy = lent.for_call(call);
        let mut cells = [0; 3];
        let (function, words) = words(call, &mut copy.lend(), &mut cells);
        // SAFETY: the words are the function's arguments, each pointer and
        // its length from a slice, or from a cell, that no one else uses.
        let (result, depth) = unsafe { on_paint(paint, function, &words) };
        assert_eq!(result, 0, "{call} is accepted");
        assert!(copy == done.lent, "{call} does what it did before");
        depth
    });
    depths.into_iter().max()
}

/// The C function of a call and its arguments, each a word.
fn words(call: Call, lent: &mut Lending, cells: &mut [usize; 3]) -> (*const (), Vec<usize>) {
    fn pair<T>(slice: &mut [T]) -> [usize; 2] {
        [slice.as_mut_ptr() as usize, slice.len()]
    }
    let tables = &mut lent.tables;
    let tables = [
        pair(lent.head),
        pair(tables.inner_vertices),
        pair(tables.inner_tokens),
        pair(tables.outer_vertices),
        pair(tables.outer_tokens),
        pair(tables.resources),
    ]
    .concat();
    let [book, buffer, set] = [&mut lent.book, &mut lent.buffer, &mut lent.set].map(|s| pair(s));
    let [list, answers] = [&mut lent.list, &mut lent.answers].map(|s| pair(s));
    let requests = pair(lent.requests);
    let [one, two, three] = cells.each_mut().map(|cell| &raw mut *cell as usize);
    let word = usize::from;
    macro_rules! of {
        ($name:ident($($part:expr),*)) => {
            (c::$name as *const (), [$(&$part[..]),*].concat())
        };
    }
    match call {
        Call::Check => of!(fenstubble_check(tables)),
        Call::Section(k) => of!(fenstubble_section(book, [k, one, two, three])),
        Call::Read => of!(fenstubble_read(book, tables, [one])),
        Call::Write => of!(fenstubble_write(tables, buffer, [one])),
        Call::Join => of!(fenstubble_join(tables, list, [one])),
        Call::Insert(..) => of!(fenstubble_insert(tables, list, [one], set)),
        Call::Grant(r, u) => of!(fenstubble_grant(tables, list, [one, word(r), word(u)])),
        Call::Revoke(r, u) => of!(fenstubble_revoke(tables, list, [one, word(r), word(u)])),
        Call::Leave(u) => of!(fenstubble_leave(tables, list, [one, word(u)])),
        Call::View(u, r) => of!(fenstubble_view(tables, [word(u), word(r), one])),
        Call::Open(u, r) => of!(fenstubble_open(
            tables,
            [word(u), word(r)],
            list,
            [one, two]
        )),
        Call::Serve => of!(fenstubble_serve(tables, requests, answers, list, [one])),
    }
}

/// Calls a C function on a painted stack: its result, and how deep the stack
/// is no longer paint.
///
/// # Safety
/// The function takes these words, none of them a float, and the call is sound.
unsafe fn on_paint(paint: u8, function: *const (), words: &[usize]) -> (u16, usize) {
    let mut stack = vec![u128::from_ne_bytes([paint; 16]); SIZE / 16];
    let bottom = stack.as_mut_ptr();
    let result = call_on(bottom.add(stack.len()), function, words);
    // The call wrote to it behind the compiler's back.
    let bytes = from_raw_parts(bottom.cast::<u8>(), SIZE);
    let depth = SIZE - bytes.iter().take_while(|&&byte| byte == paint).count();
    assert!(depth < SIZE / 2, "a stack of {SIZE} bytes is not ample");
    (result, depth)
}

/// Calls a C function with these words on the stack that ends at `top`: six in
/// registers, the others on that stack, the first of them lowest.
///
/// # Safety
/// As for [`on_paint`], and the stack is large enough.
unsafe fn call_on(top: *mut u128, function: *const (), words: &[usize]) -> u16 {
    let mut six = [0; 6];
    let count = words.len().min(six.len());
    six[..count].copy_from_slice(&words[..count]);
    let rest = &words[count..];
    // The stack pointer is a multiple of 16 at a call.
    let stack = top.sub(rest.len().div_ceil(2)).cast::<usize>();
    stack.copy_from_nonoverlapping(rest.as_ptr(), rest.len());
    let result: usize;
    // SAFETY: a C call but for its stack; r12 and r13 are the callee's to keep.
    asm!(
        "xchg rsp, r12",
        "call r13",
        "mov rsp, r12",
        inout("r12") stack => _,
        in("r13") function,
        in("rdi") six[0],
        in("rsi") six[1],
        in("rdx") six[2],
        in("rcx") six[3],
        in("r8") six[4],
        in("r9") six[5],
        lateout("rax") result,
        clobber_abi("C"),
    );
    result as u16
}

#[cfg(test)]
mod tests {
    use std::hint::black_box;

    use super::*;

    /// Its words as digits, the last five of nine; `DEEP` bytes of stack.
    extern "C" fn known(
        _: usize,
        _: usize,
        _: usize,
        _: usize,
        e: usize,
        f: usize,
        g: usize,
        h: usize,
        i: usize,
    ) -> u16 {
        let mut room = [0u8; DEEP];
        black_box(&mut room);
        let digits = [e, f, g, h, i];
        digits.iter().fold(0, |all, digit| all * 10 + *digit as u16)
    }

    const DEEP: usize = 10_000;

    #[test]
    fn a_known_depth() {
        for paint in PAINTS {
            let function = known as *const ();
            // SAFETY: nine words, as it takes them.
            let (result, depth) =
                unsafe { on_paint(paint, function, &[9, 9, 9, 9, 1, 2, 3, 4, 5]) };
            assert_eq!(result, 12345);
            assert!((DEEP..DEEP + 300).contains(&depth), "{depth}");
        }
    }
}
