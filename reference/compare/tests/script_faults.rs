//! The comparison of scripts can fail: each fault of the stand-in is found,
//! told for what it is, and shrunk.

use fenstubble_compare::process::Process;
use fenstubble_compare::report::{Bounds, Report};
use fenstubble_compare::scripts;

const BOUNDS: Bounds = Bounds {
    seed: 5,
    first: 0,
    count: 100_000,
    time: None,
};

fn standin(fault: &str) -> Process {
    Process::at(env!("CARGO_BIN_EXE_desk-standin"), &[fault])
}

fn found(fault: &str, bounds: Bounds) -> Report {
    let report = *scripts::run(&standin(fault), bounds).expect_err(fault);
    println!("{fault}: {report}\n");
    report
}

#[test]
fn nothing_where_nothing_differs() {
    let summary =
        scripts::run(&standin("none"), BOUNDS).unwrap_or_else(|report| panic!("{report}"));
    println!("{summary}");
    // It was no empty comparison.
    assert_eq!(summary.missing(), [""; 0]);
    assert!(summary.most_rows >= 4352, "{summary}");
}

#[test]
fn faults_in_lines() {
    for (fault, first, smallest) in [
        ("strips-cr", 0, "'delta\\015'"),
        ("strips-cr", 1, "'delta\\njoin\\njoin\\ninsert 0 1\\015\\n'"),
        ("strips-spaces", 0, "'delta '"),
        ("strips-spaces", 1, "'delta\\njoin \\n'"),
        ("drops-last-line", 0, "'delta'"),
        ("drops-last-line", 4, "join'"),
        ("nothing-for-nothing", 0, "printf ''"),
        ("no-last-newline", 0, "printf ''"),
        ("skips-empty-lines", 0, "\\n\\n"),
        ("stops-at-malformed", 0, "'delta\\n\\njoin\\n'"),
        ("ends-lines-at-nul", 0, "'delta\\000'"),
        ("takes-513", 0, "engine `no 1\\n`, reference `no 14\\n`"),
        ("refuses-512", 0, "engine `no 14\\n`, reference `no 1\\n`"),
        ("splits-long-lines", 3, "reference `no 14\\n`"),
        ("breaks-chunks", 0, ""),
    ] {
        let report = found(fault, Bounds { first, ..BOUNDS });
        assert!(report.smallest.contains(smallest), "{fault}: {report}");
    }
}

#[test]
fn faults_in_numbers_and_answers() {
    for (fault, smallest) in [
        ("wraps", "'delta\\ninsert 0 65536\\n'"),
        ("takes-zeros", "insert 01\\n'"),
        ("takes-six-digits", "'delta\\ninsert 100000\\n'"),
        ("no-doubles-above-63", "'delta\\ninsert 64 64\\n'"),
        (
            "loses-the-view",
            "'delta\\njoin\\ninsert 0\\nrevoke 0 0\\nopen 0 0\\n'",
        ),
        (
            "o-for-i",
            "'delta\\njoin\\njoin\\ninsert 0 1\\nopen 0 0\\n'",
        ),
        (
            "token-first",
            "'delta\\njoin\\njoin\\ninsert 0\\ninsert 0\\ngrant 0 1\\n'",
        ),
        ("folder-first", "'full\\njoin\\ninsert 0\\n'"),
        ("few-order-rows", "engine `no 10\\n`, reference `ok 320\\n`"),
        (
            "few-leave-rows",
            "engine `no 10\\n`, reference `ok 4352\\n`",
        ),
        ("leaves-again", "'delta\\njoin\\nleave 0\\nleave 0\\n'"),
        ("no-leaves", "'delta\\njoin\\nleave 0\\n'"),
        ("status-3", "it ended with exit status: 3"),
        ("aborts", "it ended with signal: 6"),
    ] {
        let report = found(fault, BOUNDS);
        assert!(report.smallest.contains(smallest), "{fault}: {report}");
    }
}

#[test]
fn a_case_alone() {
    // The number of the case is enough to find it again.
    let first = 10;
    let report = found("loses-the-view", Bounds { first, ..BOUNDS });
    assert!(report.case >= first);
    let again = Bounds {
        first: report.case,
        count: 1,
        ..BOUNDS
    };
    assert_eq!(found("loses-the-view", again), report);
}

#[test]
fn no_program() {
    let report = scripts::run(&Process::at("/no/such/program", &[]), BOUNDS).expect_err("none");
    assert!(report.text.contains("it can not be started"), "{report}");
}
