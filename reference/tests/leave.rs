//! A leave (RULES 5.12): its orders, worked out by hand; what a leaver is
//! refused (RULES 7.5); its limits, on both sides (RULES 7.6).

mod common;

use common::{joined, number, r, rows, script, set, u, ALL};
use fenstubble_reference::book::{Book, Mode, SoundBook};
use fenstubble_reference::bytes;
use fenstubble_reference::generate::{self, Random};
use fenstubble_reference::lent::{self, Store};
use fenstubble_reference::numbers::User;
use fenstubble_reference::refusal::{Refusal, View};
use fenstubble_reference::sets::UserSet;
use fenstubble_reference::sound::sound;

/// Four users, with the same numbers for their vertices in both layers.
const JOINS: [(&str, &str); 4] = [
    ("join", "4 0 0; 1 0 0"),
    ("join", "4 1 0; 1 1 0"),
    ("join", "4 2 0; 1 2 0"),
    ("join", "4 3 0; 1 3 0"),
];

fn after_joins(mode: &str, steps: &[(&str, &str)]) {
    script(mode, &[&JOINS, steps].concat());
}

#[test]
fn the_example_of_the_rules() {
    after_joins(
        "delta",
        &[
            ("insert 0 1 3", "4 4 0; 5 0 4; 5 1 4; 5 3 4; 7 0 4"),
            ("insert 0 1 2 3", "4 5 0; 5 4 5; 5 2 5; 7 1 5"),
            ("insert 2", "7 2 2"),
            ("insert 3", "7 3 3"),
            ("insert 0 1 3", "7 4 4"),
            (
                "leave 3",
                "1 4 0; 2 0 4; 2 1 4; 3 0 4; 1 5 0; 2 4 5; 2 2 5; 3 1 5; 1 6 0; 3 3 6; 3 4 4",
            ),
            ("open 3 0", "no 11 1"),
            ("open 3 1", "no 11 1"),
            ("open 3 2", "no 11 2"),
            ("open 3 3", "no 11 1"),
            ("open 3 4", "no 11 1"),
            // Those who stay come by the new vertices: 0 to 4 is outer row 0,
            // 4 to 5 is row 2.
            ("open 0 1", "i 0; i 3; o 0; o 2"),
        ],
    );
}

#[test]
fn in_mode_full() {
    // {1,3} has an outer vertex before, {0,1} too: no vertex is made.
    after_joins(
        "full",
        &[
            (
                "insert 0 1",
                "4 4 0; 5 0 4; 5 1 4; 1 4 0; 2 0 4; 2 1 4; 3 0 4; 7 0 4",
            ),
            (
                "insert 0 1 3",
                "4 5 0; 5 4 5; 5 3 5; 1 5 0; 2 4 5; 2 3 5; 3 1 5; 7 1 5",
            ),
            ("insert 3", "3 2 3; 7 2 3"),
            // Nobody is left on folder 2; {0} and {0,1} are there.
            (
                "insert 0 3",
                "4 6 0; 5 0 6; 5 3 6; 1 6 0; 2 0 6; 2 3 6; 3 3 6; 7 3 6",
            ),
            ("leave 3", "3 1 4; 1 7 0; 3 2 7; 3 3 0"),
            // The next one who leaves finds the empty vertex there.
            ("leave 0", "3 0 1; 3 1 1; 3 3 7"),
            ("leave 1", "3 0 7; 3 1 7"),
            ("leave 2", "ok"),
            ("leave 2", "no 15"),
            // All have left, and four numbers are used.
            ("join", "4 7 0; 1 8 0"),
            ("insert 4", "3 4 8; 7 4 7"),
            ("grant 0 4", "3 0 8; 6 7 4"),
            ("open 4 0", "i 6"),
        ],
    );
}

#[test]
fn who_has_left() {
    after_joins(
        "delta",
        &[
            ("insert 0 3", "4 4 0; 5 0 4; 5 3 4; 7 0 4"),
            ("insert 1", "7 1 1"),
            // On no list: no orders, but 2 has left.
            ("leave 2", "ok"),
            ("leave 2", "no 15"),
            ("grant 0 2", "no 15"),
            ("grant 1 2", "no 15"),
            ("insert 2", "no 15"),
            ("insert 0 1 2 3", "no 15"),
            // 1 before 15, whichever number it is for.
            ("grant 2 2", "no 1"),
            ("grant 9 2", "no 1"),
            ("insert 2 4", "no 1"),
            ("insert 2 99999", "no 1"),
            ("leave 4", "no 1"),
            ("revoke 0 2", "no 6"),
            ("revoke 2 2", "no 1"),
            ("open 2 0", "no 11 2"),
            ("open 2 2", "no 1"),
            // A leaver who holds the inner key still; and a list of nobody.
            ("leave 3", "3 0 0"),
            ("open 3 0", "no 11 1"),
            ("grant 0 3", "no 15"),
            ("grant 0 0", "no 5"),
            ("revoke 0 0", "1 4 0; 3 0 4"),
            ("grant 0 3", "no 15"),
            ("grant 0 0", "3 0 0"),
            // The inner vertex {0,3} is there, but it is nobody's list now: a
            // folder for 0 has 0's own vertices.
            ("insert 0", "7 2 0"),
            ("insert 0 3", "no 15"),
            // The next number is the next one, never a leaver's.
            ("join", "4 5 0; 1 5 0"),
            ("grant 0 4", "1 6 0; 2 0 6; 2 5 6; 3 0 6; 6 5 4"),
        ],
    );
}

#[test]
fn a_leaver_stays_a_holder() {
    // 2 holds inner vertex 4 by a token. After the leave a grant counts 2
    // among the holders, so that folder 0 keeps a lock.
    after_joins(
        "delta",
        &[
            ("insert 0 1", "4 4 0; 5 0 4; 5 1 4; 7 0 4"),
            ("grant 0 2", "6 2 4"),
            ("leave 2", "1 4 0; 2 0 4; 2 1 4; 3 0 4"),
            // {0,1,3} is the list, {0,1,2,3} are the holders.
            ("grant 0 3", "1 5 0; 2 4 5; 2 3 5; 3 0 5; 6 3 4"),
            // A new folder for {0,1} is locked against 2 and 3.
            ("insert 0 1", "3 1 4; 7 1 4"),
        ],
    );
}

#[test]
fn fifteen_before_the_rest() {
    // 256 folders, user 1 has left: 15 before 3 and 4's place, 1 before it.
    let mut book = joined(Mode::Delta, 3);
    for _ in 0..256 {
        book.insert(set(&[0]), ALL).unwrap();
    }
    book.leave(u(1), 0).unwrap();
    let before = book.clone();
    for room in [0, ALL] {
        assert_eq!(number(book.insert(set(&[1]), room)), 15);
        assert_eq!(number(book.insert(set(&[0, 1, 2]), room)), 15);
        assert_eq!(number(book.insert(set(&[1, 3]), room)), 1);
        assert_eq!(number(book.insert(UserSet::EMPTY, room)), 4);
        assert_eq!(number(book.insert(set(&[0]), room)), 3);
        assert_eq!(number(book.grant(r(0), u(1), room)), 15);
        assert_eq!(number(book.grant(r(256), u(1), room)), 1);
        assert_eq!(number(book.leave(u(1), room)), 15);
        assert_eq!(number(book.leave(u(3), room)), 1);
    }
    assert_eq!(book, before);
    // 64 users, one of whom has left: a join is 2.
    let mut book = joined(Mode::Full, 64);
    book.leave(u(63), 0).unwrap();
    assert_eq!(number(book.join(ALL)), 2);
    assert_eq!(number(book.leave(u(64), 0)), 1);
}

#[test]
fn every_user_leaves() {
    for mode in [Mode::Full, Mode::Delta] {
        let random = &mut Random::new(17);
        let mut book = joined(mode, 64);
        for _ in 0..3 {
            let list = generate::subset(random, UserSet::first(64));
            book.insert(list.with(u(63)), ALL).unwrap();
        }
        for user in UserSet::first(64).users() {
            book.leave(user, ALL).unwrap();
            assert_eq!(sound(book.book()), Ok(()));
            let leavers = book.book().leavers;
            assert_eq!(leavers, UserSet::first(user.0 + 1));
            for place in 0..3 {
                let view = book.view(user, r(place)).unwrap();
                assert_ne!(view, View::Open);
            }
            let read = bytes::read(&bytes::write(book.book()));
            assert_eq!(read, Ok(book.clone()));
        }
        let mut folders = book.book().resources.iter();
        assert!(folders.all(|row| row.list.is_empty()));
    }
}

/// A leave on the book and on lent tables with so many order rows: both answer
/// the same, and a refusal leaves all as it was.
fn leave(book: &Book, user: User, room: usize) -> Result<(SoundBook, usize), Refusal> {
    let mut after = SoundBook::new(book.clone()).unwrap();
    let orders = after.leave(user, room);
    let mut store = Store::of(book, 0x5A);
    let mut list = vec![9; room * 3 + 2];
    let lent = lent::leave(&book.head(), &mut store.lend(), user.0, &mut list);
    match orders {
        Ok(orders) => {
            assert_eq!(lent, Ok((after.book().head(), orders.len())));
            let given: Vec<u16> = orders.iter().flat_map(|order| order.row()).collect();
            assert_eq!(list[..given.len()], given);
            assert!(list[given.len()..].iter().all(|&n| n == 9));
            assert_eq!(store, Store::of(after.book(), 0x5A));
            assert_eq!(sound(after.book()), Ok(()));
            Ok((after, orders.len()))
        }
        Err(no) => {
            assert_eq!(after.book(), book);
            assert_eq!(lent, Err(no));
            assert!(list.iter().all(|&n| n == 9));
            assert_eq!(store, Store::of(book, 0x5A));
            Err(no)
        }
    }
}

/// Books with folders for user 0 and others, most lists different.
fn books() -> Vec<Book> {
    let random = &mut Random::new(18);
    let mut books = Vec::new();
    for (mode, users, folders) in [
        (Mode::Delta, 12, 40),
        (Mode::Full, 12, 40),
        (Mode::Delta, 64, 60),
        (Mode::Full, 64, 30),
        (Mode::Delta, 10, 1),
    ] {
        let mut book = joined(mode, users);
        for _ in 0..folders {
            let list = generate::subset(random, UserSet::first(users as u16));
            book.insert(list.with(u(0)).with(u(1)), ALL).unwrap();
        }
        books.push(book.into_book());
    }
    books
}

#[test]
fn seven_and_nine_on_the_whole() {
    for book in books() {
        let free = SoundBook::new(book.clone()).unwrap();
        let (left, orders) = leave(&book, u(0), 4608).unwrap();
        let new_groups = left.book().outer_groups() - book.outer_groups();
        let new_tokens = left.book().outer_tokens.len() - book.outer_tokens.len();
        assert!(new_groups > 0 && new_tokens > 0);

        let random = &mut Random::new(19);
        // Exactly the limit, and one more; both limits at once: 7 comes first.
        for (groups, tokens, expected) in [
            (448 - new_groups, 4096 - new_tokens, None),
            (449 - new_groups, 4096 - new_tokens, Some(7)),
            (448 - new_groups, 4097 - new_tokens, Some(9)),
            (449 - new_groups, 4097 - new_tokens, Some(7)),
            (448, 4096 - new_tokens, Some(7)),
            (448 - new_groups, 4096, Some(9)),
        ] {
            let padded = generate::padded(random, &book, u(0), groups, tokens);
            assert_eq!(padded.outer_groups(), groups);
            assert_eq!(padded.outer_tokens.len(), tokens);
            assert_eq!(sound(&padded), Ok(()));
            match expected {
                None => {
                    // And 10 on both sides.
                    let (after, count) = leave(&padded, u(0), orders).unwrap();
                    assert_eq!(count, orders);
                    assert_eq!(after.book().outer_groups(), 448);
                    assert_eq!(after.book().outer_tokens.len(), 4096);
                    let short = leave(&padded, u(0), orders - 1);
                    assert_eq!(short, Err(Refusal::TOO_SHORT));
                    assert_eq!(leave(&padded, u(0), 0), Err(Refusal::TOO_SHORT));
                }
                Some(expected) => {
                    for room in [0, orders, 4608] {
                        assert_eq!(number(leave(&padded, u(0), room)), expected);
                    }
                    // Some of the revokes would go through by themselves.
                    let mut one = SoundBook::new(padded).unwrap();
                    let folders = free.book().resources.len();
                    let done = (0..folders)
                        .filter(|&place| one.revoke(r(place as u16), u(0), ALL).is_ok())
                        .count();
                    assert!(done < folders);
                }
            }
        }
    }
}

#[test]
fn one_vertex_for_several_folders() {
    // 300 orders and one vertex: at 447 groups it fits, at 448 it does not.
    let mut book = joined(Mode::Delta, 10);
    for _ in 0..256 {
        book.insert(UserSet::first(10), ALL).unwrap();
    }
    let random = &mut Random::new(20);
    let padded = generate::padded(random, book.book(), u(9), 447, 0);
    let (after, count) = leave(&padded, u(9), 266).unwrap();
    assert_eq!((after.book().outer_groups(), count), (448, 1 + 9 + 256));
    let padded = generate::padded(random, book.book(), u(9), 448, 0);
    assert_eq!(leave(&padded, u(9), 266), Err(Refusal::OUTER_GROUPS_FULL));
    // Where the sets are there it needs nothing: a book at both limits.
    let mut with = book.clone();
    with.revoke(r(0), u(9), ALL).unwrap();
    let padded = generate::padded(random, with.book(), u(9), 448, 4096);
    assert_eq!(padded.outer_tokens.len(), 4096);
    let (_, count) = leave(&padded, u(9), 255).unwrap();
    assert_eq!(count, 255);
}

#[test]
fn a_leave_does_not_meet_eight() {
    // No room for the inner tokens of one more list: no leave needs any.
    let random = &mut Random::new(21);
    let mut book = joined(Mode::Delta, 64);
    while let Ok(orders) = book.insert(generate::subset(random, UserSet::first(64)), ALL) {
        assert!(!orders.is_empty());
    }
    for user in [0, 31, 63] {
        let mut book = book.clone();
        let tokens = book.book().inner_tokens.clone();
        book.leave(u(user), ALL).unwrap();
        assert_eq!(book.book().inner_tokens, tokens);
    }
}

#[test]
fn the_same_as_revokes_one_by_one() {
    let mut book = joined(Mode::Delta, 5);
    for list in [&[0, 4][..], &[4], &[1, 2], &[0, 4], &[0, 1, 2, 4]] {
        book.insert(set(list), ALL).unwrap();
    }
    let mut one = book.clone();
    let mut orders = Vec::new();
    for place in [0, 1, 3, 4] {
        orders.extend(rows(one.revoke(r(place), u(4), ALL)));
    }
    assert_eq!(rows(book.leave(u(4), ALL)), orders);
    let mut same = one.into_book();
    same.leavers = set(&[4]);
    assert_eq!(book.book(), &same);
}
