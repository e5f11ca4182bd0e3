//! The comparison can fail: each fault planted in the stand-in is found, told
//! for what it is, and shrunk.

use fenstubble_compare::books;
use fenstubble_compare::report::{Bounds, Report};
use fenstubble_compare::standin::{plant, Fault};

const BOUNDS: Bounds = Bounds {
    seed: 3,
    first: 0,
    count: 20_000,
    time: None,
};

/// The report with the fault planted.
fn found<S: std::fmt::Debug>(
    fault: Fault,
    run: impl FnOnce(Bounds) -> Result<S, Box<Report>>,
) -> Report {
    plant(fault);
    let report = *run(BOUNDS).expect_err("the fault was not found");
    plant(Fault::None);
    println!("{fault:?}: {report}\n");
    report
}

#[test]
fn faults_in_books() {
    for (fault, call, text) in [
        (
            Fault::TableOnRefusal,
            "read",
            "it should have stayed as it was",
        ),
        (Fault::WrongNumber, "read", "engine no 12, model no 13"),
        (
            Fault::LateSection,
            "section",
            "engine Stretch(18, 0), model Stretch(17, 0)",
        ),
        (
            Fault::PastTheEnd,
            "read",
            "resources 0 past the lent end: engine 0",
        ),
        (Fault::UnusedRow, "read", "the table of inner vertices at"),
        (Fault::HeadForgotten, "", "the head at 6: engine 0"),
        (
            Fault::WrongLength,
            "write",
            "engine Length(26), model Length(25)",
        ),
        (
            Fault::PastTheAnswer,
            "write",
            "the buffer 0 past the lent end: engine 0",
        ),
        (Fault::FewResources, "read", "engine no 12, model Nothing"),
        (Fault::OldRefused, "read", "engine no 21 3, model Nothing"),
        (Fault::OldLeaversKept, "read", "the head at"),
        (
            Fault::WritesOld,
            "write",
            "engine Length(17), model Length(25)",
        ),
        (Fault::SevenNumbers, "", "model no 13"),
    ] {
        let report = found(fault, books::run);
        assert!(report.call.starts_with(call), "{fault:?}: {report}");
        assert!(report.text.contains(text), "{fault:?}: {report}");
        assert!(report.smallest.contains(text), "{fault:?}: {report}");
    }
}

#[test]
fn faults_in_places() {
    for (fault, engine, model) in [
        (Fault::EarlierRow(33), "engine no 33 ", "model no 33 "),
        (Fault::EarlierRow(36), "engine no 36 ", "model no 36 "),
        (Fault::TokenFirst, "engine no 32 ", "model no 32 65535"),
        (Fault::LengthFirst, "engine no 24 ", "model no 23 "),
        (Fault::LastCount, "engine no 23 ", "model no 23 "),
        (Fault::SetsFirst, "engine no 31 ", "model no 31 "),
        (Fault::EqualLast, "engine no 36 ", "model no 36 "),
        (Fault::TokenOfGroup, "engine no 35 ", "model no 35 "),
        (Fault::PlaceCut, "engine no 24 ", "model no 24 "),
        (Fault::PlaceHalf, "engine no 24 ", "model no 24 "),
        (Fault::OldPlaces, "engine no 3", "model no 3"),
        (Fault::LeaverAtSet, "engine no 31 17", "model no 31 "),
        (Fault::LeaversLast, "engine no 31 ", "model no 31 17"),
    ] {
        misplaced(fault, engine, model);
    }
    for number in 31..=38 {
        let [engine, model] = ["engine", "model"].map(|side| format!("{side} no {number} "));
        misplaced(Fault::LateRow(number), &engine, &model);
    }
    for (call, code, model) in [
        ("section", 0, "model Stretch("),
        ("section", 1, "model no 1"),
        ("read", 0, "model Nothing"),
        ("read", 13, "model no 13"),
    ] {
        let engine = format!("engine result {code}, which goes with no cells");
        let report = misplaced(Fault::PlaceKept(call, code), &engine, model);
        assert!(report.call.starts_with(call), "{report}");
    }
}

/// The report of the fault, which says what both sides told.
fn misplaced(fault: Fault, engine: &str, model: &str) -> Report {
    let report = found(fault, books::run);
    for text in [engine, model] {
        assert!(report.text.contains(text), "{fault:?}: {report}");
        assert!(report.smallest.contains(text), "{fault:?}: {report}");
    }
    report
}

/// A cell that a refused call of that name puts 0 into is told.
fn zeroed<S: std::fmt::Debug>(
    call: &'static str,
    cell: usize,
    run: fn(Bounds) -> Result<S, Box<Report>>,
) {
    let report = found(Fault::ZeroedCell(call, cell), run);
    let text = "which goes with no cells";
    assert!(report.call.starts_with(call), "{call} {cell}: {report}");
    assert!(report.text.contains(text), "{call} {cell}: {report}");
}

#[test]
fn each_cell_zeroed_on_refusal() {
    for (call, cell) in [("section", 0), ("section", 1), ("write", 0)] {
        zeroed(call, cell, books::run);
    }
}

#[test]
fn the_smallest_book() {
    // Three resources are as few as differ; they need one user, with an own
    // vertex in each layer.
    let report = found(Fault::FewResources, |bounds| {
        books::run(Bounds { first: 2, ..bounds })
    });
    for line in [
        "1 users",
        "inner vertices (1): {0}",
        "inner tokens (0):",
        "outer vertices (1): {0}",
        "outer tokens (0):",
        "resources (3):",
    ] {
        assert!(report.smallest.contains(line), "{line}: {report}");
    }
}

#[test]
fn a_case_alone() {
    // The number of the case is enough to find it again.
    let report = found(Fault::FewResources, |bounds| {
        books::run(Bounds { first: 9, ..bounds })
    });
    assert!(report.case >= 9);
    let again = found(Fault::FewResources, |bounds| {
        books::run(Bounds {
            first: report.case,
            count: 1,
            ..bounds
        })
    });
    assert_eq!(again, report);
}

#[test]
fn something_kept_between_calls() {
    let report = found(Fault::Every300th, books::run);
    assert!(report.text.contains("engine no 13"), "{report}");
    assert!(report.smallest.contains("does not differ"), "{report}");
}

mod requests {
    use super::*;
    use fenstubble_compare::requests;

    #[test]
    fn faults_in_requests() {
        for (fault, call, text) in [
            (Fault::TableOnRefusal, "", "it should have stayed as it was"),
            (Fault::WrongNumber, "", "engine no 12, model no 13"),
            (Fault::WrongCount, "", "engine Orders("),
            (Fault::PastTheRows, "", "the list at"),
            (Fault::LastRow, "grant", "the list at"),
            (Fault::PublishedFirst, "grant", "the list at 0: engine 6"),
            (Fault::OwnLockFirst, "grant", "the list at"),
            (Fault::EncryptedFirst, "insert", "engine 7, model"),
            (Fault::HeadKept, "revoke", "the head at"),
            (
                Fault::ViewLost,
                "open",
                "result 11, which goes with no cells",
            ),
            (Fault::ViewsSwapped, "view", "engine View("),
            (Fault::ChainsSwapped, "open", "engine Chains("),
            (Fault::FirstAlone, "serve", "the answers at"),
            (Fault::OpenUnused, "serve", "engine Used("),
            (Fault::ShortSet, "insert", "model no 13"),
            (Fault::LongSet, "insert", "engine no 1, model Orders("),
            (Fault::SetCleared, "insert", "the set at"),
            (Fault::FirstList, "leave", "engine Orders("),
            (Fault::LastListFirst, "leave", "the list at"),
            (
                Fault::ListByList,
                "leave",
                "it should have stayed as it was",
            ),
            (Fault::NumberByList, "leave", "engine no 9, model no 7"),
            (Fault::LeaverForgotten, "leave", "the head at"),
            (Fault::LeaveAgain, "leave", "engine Orders(0), model no 15"),
            (
                Fault::NumberAgain,
                "join",
                "engine Orders(0), model Orders(2)",
            ),
            (Fault::LeaverBack("grant"), "grant", "model no 15"),
            (Fault::LeaverBack("insert"), "insert", "model no 15"),
            (
                Fault::FifteenFirst("grant"),
                "grant",
                "engine no 15, model no 1",
            ),
            (
                Fault::FifteenFirst("insert"),
                "insert",
                "engine no 15, model no 1",
            ),
            (Fault::FifteenLast("grant"), "grant", "model no 15"),
            (Fault::FifteenLast("insert"), "insert", "model no 15"),
            (Fault::ThirdNumber, "serve", "the answers at"),
            (Fault::SevenNumbers, "", "model no 13"),
        ] {
            let report = found(fault, requests::run);
            assert!(report.call.starts_with(call), "{fault:?}: {report}");
            assert!(report.text.contains(text), "{fault:?}: {report}");
            assert!(report.smallest.contains(text), "{fault:?}: {report}");
        }
    }

    #[test]
    fn each_cell_zeroed_on_refusal() {
        for (call, cell) in [
            ("join", 0),
            ("insert", 0),
            ("grant", 0),
            ("revoke", 0),
            ("leave", 0),
            ("view", 0),
            ("open", 0),
            ("open", 1),
            ("serve", 0),
        ] {
            zeroed(call, cell, requests::run);
        }
    }

    #[test]
    fn the_smallest_script() {
        // Past the fixed cases, until a run from the empty book finds it: two
        // users are as few as make a chain, and one list of both.
        let scripts = (13..213).filter_map(|first| {
            let report = found(Fault::ChainsSwapped, |bounds| {
                requests::run(Bounds { first, ..bounds })
            });
            let script = report.smallest.strip_prefix("after\n")?;
            let (script, _) = script.split_once("the call\n")?;
            Some(script.to_string())
        });
        let shortest = scripts.min_by_key(|script| script.lines().count());
        let shortest = shortest.expect("no run from the empty book");
        assert_eq!(shortest, "delta\njoin\njoin\ninsert 0 1\n");
    }

    #[test]
    fn the_smallest_world() {
        // The view of user 0 on resource 1: two users and two resources are
        // as few as differ, with one group between them.
        let report = found(Fault::ViewsSwapped, requests::run);
        assert_eq!(report.call, "view 0 1");
        for line in ["2 users", "inner vertices (3)", "resources (2)"] {
            assert!(report.smallest.contains(line), "{line}: {report}");
        }
    }
}
