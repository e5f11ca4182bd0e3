//! A bounded comparison of the check programs.

use fenstubble_compare::inspections;
use fenstubble_compare::process::Process;
use fenstubble_compare::report::Bounds;

#[test]
fn inspections_alike() {
    let program = Process::inspect().unwrap_or_else(|text| panic!("{text}"));
    let bounds = Bounds {
        seed: 1,
        first: 0,
        count: 3_000,
        time: None,
    };
    let summary = inspections::run(&program, bounds).unwrap_or_else(|report| panic!("{report}"));
    println!("{summary}");
    // It was no empty comparison.
    assert_eq!(summary.never_met(), [0; 0], "{summary}");
    assert!(summary.sound.iter().all(|&some| some > 50), "{summary}");
    assert!(summary.left > 50 && summary.leavers > 10, "{summary}");
}
