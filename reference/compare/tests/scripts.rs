//! A bounded comparison of the request programs.

use fenstubble_compare::process::Process;
use fenstubble_compare::report::Bounds;
use fenstubble_compare::scripts;

#[test]
fn scripts_alike() {
    let desk = Process::desk().unwrap_or_else(|text| panic!("{text}"));
    let bounds = Bounds {
        seed: 1,
        first: 0,
        count: 130_000,
        time: None,
    };
    let summary = scripts::run(&desk, bounds).unwrap_or_else(|report| panic!("{report}"));
    println!("{summary}");
    // It was no empty comparison.
    assert_eq!(summary.missing(), [""; 0]);
    assert!(summary.most_rows >= 4352, "{summary}");
    assert!(summary.leaves.iter().all(|&some| some > 200), "{summary}");
    // And the order of the orders shows.
    assert!(summary.locks.grants > 50, "{summary}");
    assert!(summary.locks.inserts > 50, "{summary}");
}
