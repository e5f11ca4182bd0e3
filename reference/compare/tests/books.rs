//! A bounded comparison of check, section, read and write.

use std::time::Duration;

use fenstubble_compare::books::{self, NUMBERS};
use fenstubble_compare::report::Bounds;

#[test]
fn books_alike() {
    let bounds = Bounds {
        seed: 1,
        first: 0,
        count: 40_000,
        time: Some(Duration::from_secs(20)),
    };
    let summary = books::run(bounds).unwrap_or_else(|report| panic!("{report}"));
    println!("{summary}");

    // It was no empty comparison.
    assert!(summary.strings > 9_000, "{summary}");
    assert!(summary.sound.iter().all(|&some| some > 100), "{summary}");
    assert!(summary.left > 100, "{summary}");
    assert!(summary.alone.iter().all(|&count| count > 0), "{summary}");
    // Everything that can be wrong with a book's bytes was met, and often.
    assert_eq!(summary.never_met(), [""; 0], "{summary}");
    for number in NUMBERS {
        assert!(summary.tally.of("section", number) > 200, "{summary}");
        assert!(summary.tally.of("read", number) > 25, "{summary}");
    }
    for (name, numbers) in [
        ("check", &[0, 12, 13][..]),
        ("section", &[0, 1]),
        ("read", &[0, 13]),
        ("write", &[0, 10, 12, 13]),
    ] {
        for &number in numbers {
            assert!(summary.tally.of(name, number) > 0, "{name} {number}");
        }
    }
}
