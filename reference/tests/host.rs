//! The host that only obeys orders (RULES 6.5 to 6.7): what it can not obey, a
//! lock for a folder that is not there yet, what it hands out.

mod common;

use common::{joined, p2, readers, set, u};
use fenstubble_reference::book::Mode;
use fenstubble_reference::host::{Host, Task};

/// The host of P2.
fn host() -> Host {
    Host::of(p2().book(), 1).unwrap()
}

#[test]
fn orders_that_can_not_be_obeyed() {
    let bad = [
        ("no such kind", [0, 0, 0]),
        ("no such kind", [8, 3, 0]),
        ("a key out of turn", [1, 4, 0]),
        ("a key with a second number", [1, 3, 1]),
        ("a token from a vertex without key", [2, 3, 0]),
        ("a token to a vertex without key", [2, 0, 3]),
        ("a lock with a vertex without key", [3, 0, 3]),
        ("a lock for the next folder, likewise", [3, 2, 3]),
        ("a lock for the folder after the next", [3, 3, 0]),
        ("a lock off a folder that is not there", [3, 2, 65535]),
        ("inner keys out of turn", [4, 5, 0]),
        ("inner keys with a second number", [4, 4, 1]),
        ("a kind 0 token from a vertex without key", [5, 4, 0]),
        ("a kind 0 token to a vertex without key", [5, 0, 4]),
        ("a kind 1 token from a vertex without key", [6, 4, 0]),
        ("a kind 1 token to a vertex without key", [6, 0, 4]),
        ("a folder out of turn", [7, 3, 3]),
        ("a folder with a vertex without key", [7, 2, 4]),
        ("a folder encrypted again otherwise", [7, 0, 2]),
    ];
    for (what, row) in bad {
        let mut host = host();
        let before = host.clone();
        assert!(host.obey(row, None).is_err(), "{what}");
        assert!(host.obey_again(row, None).is_err(), "{what}");
        assert_eq!(host, before, "{what}");
    }
}

#[test]
fn what_is_there_already() {
    let done = [
        ("an outer key", [1, 2, 0]),
        ("a lock that is off", [3, 1, 65535]),
        ("inner keys", [4, 3, 0]),
        ("a kind 0 token", [5, 0, 3]),
        ("a folder", [7, 0, 3]),
        ("an outer token", [2, 0, 3]),
        ("a kind 1 token", [6, 2, 3]),
        ("a lock", [3, 0, 3]),
        ("a lock kept in mind", [3, 2, 3]),
    ];
    let mut host = host();
    for row in [[1, 3, 0], [2, 0, 3], [6, 2, 3], [3, 0, 3], [3, 2, 3]] {
        host.obey(row, None).unwrap();
    }
    let before = host.clone();
    for (what, row) in done {
        assert!(host.obey(row, None).is_err(), "{what}");
        assert!(host.obey_again(row, None).is_ok(), "{what}");
        assert_eq!(host, before, "{what}");
    }
}

#[test]
fn a_lock_is_kept_in_mind() {
    // Locked with 0's own outer vertex before it is there.
    let mut host = host();
    host.obey([3, 2, 0], None).unwrap();
    assert_eq!(host.folders(), 2);
    assert_eq!(readers(&host, 3, 2), set(&[]));
    host.obey([7, 2, 3], None).unwrap();
    assert_eq!(host.folders(), 3);
    assert_eq!(readers(&host, 3, 2), set(&[0]));
    // It is the lock of that folder alone.
    host.obey([7, 3, 3], None).unwrap();
    assert_eq!(readers(&host, 3, 3), set(&[0, 1]));

    // No folder comes for it.
    let rows = vec![[3, 4, 0]];
    assert!(host.execute(&Task { rows, joiner: None }).is_err());
}

#[test]
fn locks_and_tokens() {
    let mut host = host();
    assert_eq!(readers(&host, 3, 0), set(&[0, 1]));
    // A kind 1 token gives an access key: folders 0 and 1, but not a folder
    // of the larger set behind it.
    let larger = [[4, 4, 0], [5, 3, 4], [7, 2, 4], [6, 2, 3]];
    for row in larger {
        host.obey(row, None).unwrap();
    }
    assert_eq!(readers(&host, 3, 0), set(&[0, 1, 2]));
    assert_eq!(readers(&host, 3, 2), set(&[0, 1]));
    // A lock keeps out whoever has not its key, another one takes its place,
    // and it comes off.
    for (vertex, who) in [(1, &[1][..]), (2, &[2]), (65535, &[0, 1, 2])] {
        host.obey([3, 0, vertex], None).unwrap();
        assert_eq!(readers(&host, 3, 0), set(who));
    }
    // A lock that nobody has the key of, until tokens lead to it.
    host.obey([1, 3, 0], None).unwrap();
    host.obey([3, 1, 3], None).unwrap();
    assert_eq!(readers(&host, 3, 1), set(&[]));
    host.obey([2, 2, 3], None).unwrap();
    assert_eq!(readers(&host, 3, 1), set(&[2]));
}

#[test]
fn a_joiner_is_handed_two_keys() {
    let book = joined(Mode::Delta, 4).into_book();
    let mut before = Host::of(joined(Mode::Delta, 3).book(), 2).unwrap();
    let mut nobody = before.clone();
    for row in [[4, 3, 0], [1, 3, 0]] {
        assert!(before.agrees(&book).is_err());
        before.obey(row, Some(u(3))).unwrap();
        nobody.obey(row, None).unwrap();
    }
    assert_eq!(before.agrees(&book), Ok(()));
    assert!(nobody.agrees(&book).is_err());
    // With these they open a folder for them alone.
    for host in [&mut before, &mut nobody] {
        host.obey([3, 0, 3], None).unwrap();
        host.obey([7, 0, 3], None).unwrap();
    }
    assert_eq!(readers(&before, 4, 0), set(&[3]));
    assert_eq!(readers(&nobody, 4, 0), set(&[]));
}
