//! Makes one call on one side, for valgrind to count: `counted engine 'grant 3
//! 5' BOOK`. All that comes before is outside of `measured_call`. A book that is
//! no sound one can be read and its sections asked for; the refusal is told.

use std::hint::black_box;
use std::process::ExitCode;

use fenstubble_compare::bench::{call_of, Item};
use fenstubble_compare::engine::Engine;
use fenstubble_compare::model::Model;
use fenstubble_compare::side::{Answer, Call, Lending, Side};

/// Only what happens in here is counted.
#[no_mangle]
#[inline(never)]
fn measured_call(make: Make, call: Call, lent: &mut Lending) -> Answer {
    make(call, lent)
}

type Make = fn(Call, &mut Lending) -> Answer;

fn main() -> ExitCode {
    let arguments: Vec<String> = std::env::args().skip(1).collect();
    let [side, words, book] = arguments.as_slice() else {
        eprintln!("usage: counted engine|reference CALL BOOK");
        return ExitCode::from(2);
    };
    let make: Make = match side.as_str() {
        "engine" => Engine::make,
        _ => Model::make,
    };
    let (Some(call), Ok(bytes)) = (call_of(words), std::fs::read(book)) else {
        eprintln!("counted: no such call or book");
        return ExitCode::from(2);
    };
    let item = Item {
        name: String::new(),
        call,
        bytes,
    };
    let mut lent = item.lent();
    match measured_call(black_box(make), call, &mut lent.lend()) {
        Ok(Ok(_)) => ExitCode::SUCCESS,
        Ok(Err(no)) => {
            eprintln!("counted: {no}");
            ExitCode::SUCCESS
        }
        Err(odd) => {
            eprintln!("counted: {odd:?}");
            ExitCode::FAILURE
        }
    }
}
