//! The comparison of check programs can fail: each fault of the stand-in is
//! found, told for what it is, and shrunk.

use fenstubble_compare::inspections;
use fenstubble_compare::process::Process;
use fenstubble_compare::report::{Bounds, Report};

const BOUNDS: Bounds = Bounds {
    seed: 5,
    first: 0,
    count: 1_500,
    time: None,
};

fn standin(fault: &str) -> Process {
    Process::at(env!("CARGO_BIN_EXE_inspect-standin"), &[fault]).with_any_status()
}

fn found(fault: &str) -> Report {
    let report = *inspections::run(&standin(fault), BOUNDS).expect_err(fault);
    println!("{fault}: {report}\n");
    report
}

#[test]
fn nothing_where_nothing_differs() {
    // Its own words, and its own status, are a program's own.
    for fault in ["none", "other-words", "status-1"] {
        let summary =
            inspections::run(&standin(fault), BOUNDS).unwrap_or_else(|report| panic!("{report}"));
        println!("{summary}");
        assert_eq!(summary.never_met(), [0; 0], "{summary}");
    }
}

#[test]
fn each_fault() {
    for (fault, text) in [
        ("one-line", "from byte 8 on: engine ``, reference `0 bytes"),
        ("three-lines", "engine `and more\\n`, reference ``"),
        (
            "no-words",
            "from byte 8 on: engine `\\n`, reference `0 bytes",
        ),
        ("no-last-newline", "17`, reference `0 bytes"),
        ("no-place", "engine `no 24\\n"),
        ("twelve", "engine `no 12\\n"),
        ("no-counts", "engine ``, reference `mode"),
        ("counts-swapped", "engine `inner tokens 0\\n"),
        ("folders-as-resources", "engine `resources 0\\n"),
        ("one-read", "reference `"),
        ("stops-at-largest", "engine `no 24 46618\\n"),
        ("old-refused", "engine `no 21 3\\n"),
        ("eight-lines", "engine ``, reference `leavers 0\\n`"),
        ("staying", "engine `leavers "),
        ("cuts-at-65536", "engine `no 24 65536\\n"),
        ("place-in-16-bits", "engine `no 24 0\\n"),
        ("drops-last-newline", "reference `no 24 1\\n"),
        ("aborts", "it ended with signal: 6"),
    ] {
        let report = found(fault);
        assert!(report.text.contains(text), "{fault}: {report}");
        assert!(report.smallest.contains("a book, "), "{fault}: {report}");
    }
}

#[test]
fn no_program() {
    let program = Process::at("/no/such/program", &[]);
    let report = inspections::run(&program, BOUNDS).expect_err("none");
    assert!(report.text.contains("it can not be started"), "{report}");
}
