//! A bounded comparison of join, insert, grant, revoke, leave, view and open.

use std::time::Duration;

use fenstubble_compare::engine;
use fenstubble_compare::report::Bounds;
use fenstubble_compare::requests;

#[test]
fn the_version() {
    assert_eq!(engine::version(), 40000);
}

#[test]
fn requests_alike() {
    let bounds = Bounds {
        seed: 1,
        first: 0,
        count: 100_000,
        time: Some(Duration::from_secs(30)),
    };
    let summary = requests::run(bounds).unwrap_or_else(|report| panic!("{report}"));
    println!("{summary}");

    // It was no empty comparison: every number each request can get.
    for (name, numbers) in [
        ("join", &[0, 2, 10, 12, 13][..]),
        ("insert", &[0, 1, 3, 4, 7, 8, 9, 10, 12, 13, 15]),
        ("grant", &[0, 1, 5, 7, 8, 9, 10, 12, 13, 15]),
        ("revoke", &[0, 1, 6, 7, 9, 10, 12, 13]),
        ("leave", &[0, 1, 7, 9, 10, 12, 13, 15]),
        ("view", &[0, 1, 12, 13]),
        ("open", &[0, 1, 10, 11, 12, 13]),
    ] {
        for &number in numbers {
            assert!(
                summary.tally.of(name, number) > 0,
                "{name} {number}: {summary}"
            );
        }
    }
    for number in [0, 10, 12, 13] {
        assert!(summary.tally.of("serve", number) > 0, "{number}: {summary}");
    }
    for number in [0, 1, 4, 5, 6, 10, 11, 15] {
        assert!(summary.served[number] > 0, "{number}: {summary}");
    }
    let lists = summary.tally.lists;
    assert!(lists.iter().all(|&count| count > 100), "{summary}");
    assert_eq!(summary.longest, [63, 63]);
    assert_eq!(summary.most_orders, 4608);
    // Leaves were many, and what is asked about leavers.
    assert!(
        summary.leaves().iter().all(|&some| some > 1000),
        "{summary}"
    );
    assert!(
        summary.served_leaves.iter().all(|&some| some > 50),
        "{summary}"
    );
    for name in ["insert", "grant", "leave"] {
        assert!(summary.tally.of(name, 15) > 200, "{name}: {summary}");
    }
    for number in [7, 9, 10] {
        assert!(summary.tally.of("leave", number) > 20, "{summary}");
    }
    // And the order of the orders shows.
    assert!(summary.locks.grants > 100, "{summary}");
    assert!(summary.locks.inserts > 100, "{summary}");
}
