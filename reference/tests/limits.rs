//! Runs into the limits 7, 8 and 9, on both sides.

mod common;

use common::{joined, number, r, rows, set, u, ALL};
use fenstubble_reference::book::{Mode, SoundBook};
use fenstubble_reference::generate::Random;
use fenstubble_reference::lent::{self, Store};
use fenstubble_reference::requests::{cover, Request};
use fenstubble_reference::sets::UserSet;
use fenstubble_reference::sound::sound;

/// A random set of so many of 64 users.
fn of_size(random: &mut Random, size: u32) -> UserSet {
    let mut set = UserSet::EMPTY;
    while set.size() < size {
        set = set.with(u(random.below(64) as u16));
    }
    set
}

/// The request is refused with the number and changes nothing, in the book
/// and on lent tables; also without any room for orders, since 10 is last.
fn refused(book: &mut SoundBook, request: Request, expected: u8) {
    let before = book.clone();
    assert_eq!(number(book.answer(&request, ALL)), expected, "{request}");
    assert_eq!(number(book.answer(&request, 0)), expected, "{request}");
    assert_eq!(*book, before);
    assert_eq!(sound(book.book()), Ok(()));
    let mut store = Store::of(book.book(), 0x5A);
    let untouched = store.clone();
    let head = book.book().head();
    for length in [0, 3 * 400] {
        let mut list = vec![9; length];
        let mut tables = store.lend();
        let result = match request {
            Request::Insert(asked) => lent::insert(&head, &mut tables, asked.set.0, &mut list),
            Request::Grant(r, u) => lent::grant(&head, &mut tables, r.0, u.0, &mut list),
            Request::Revoke(r, u) => lent::revoke(&head, &mut tables, r.0, u.0, &mut list),
            Request::Leave(u) => lent::leave(&head, &mut tables, u.0, &mut list),
            _ => panic!("not a request that meets a limit"),
        };
        assert_eq!(number(result), expected, "{request}");
        assert!(list.iter().all(|&n| n == 9));
        assert_eq!(store, untouched);
    }
}

/// The request is accepted and leaves a sound book.
fn accepted(book: &mut SoundBook, request: Request) {
    book.answer(&request, ALL).unwrap();
    assert_eq!(sound(book.book()), Ok(()));
}

#[test]
fn seven() {
    // 10 users, one folder for all; its list then walks through sets that
    // differ by one user (a Gray code), each a new outer vertex. The limit
    // is 448 groups although 512 rows are lent.
    for mode in [Mode::Full, Mode::Delta] {
        let mut book = joined(mode, 10);
        book.insert(UserSet::first(10), ALL).unwrap();
        let gray = |n: u64| UserSet((n ^ (n >> 1)) ^ 0x3FF);
        let step = |n: u64| {
            let user = gray(n).0 ^ gray(n + 1).0;
            let user = UserSet(user).only_user().unwrap();
            if gray(n).names(user) {
                Request::Revoke(r(0), user)
            } else {
                Request::Grant(r(0), user)
            }
        };
        let mut n = 0;
        while book.book().outer_groups() < 448 {
            accepted(&mut book, step(n));
            n += 1;
        }
        assert_eq!(book.book().outer_vertices.len(), 458);
        // The walk's next set is new.
        refused(&mut book, step(n), 7);
        // Back to the set before needs no new vertex.
        match step(n - 1) {
            Request::Revoke(r, u) => accepted(&mut book, Request::Grant(r, u)),
            Request::Grant(r, u) => accepted(&mut book, Request::Revoke(r, u)),
            _ => unreachable!(),
        }
        assert_eq!(book.book().outer_groups(), 448);
        // A joiner's own vertex does not count.
        accepted(&mut book, Request::Join);
        assert_eq!(book.book().outer_vertices.len(), 459);
        // In full mode an insert for a new set meets the limit; in delta it
        // needs no outer vertex.
        let new = Request::Insert(set(&[10, 0]).into());
        if mode == Mode::Full {
            refused(&mut book, new, 7);
        } else {
            accepted(&mut book, new);
        }
    }
}

#[test]
fn eight_by_inserts_and_grants() {
    // Lists of 32 of 64 users: none is inside another, so each takes the 32
    // own vertices. 127 make 4064 tokens.
    let mut random = Random::new(8);
    let mut book = joined(Mode::Delta, 64);
    for _ in 0..127 {
        let list = of_size(&mut random, 32);
        accepted(&mut book, Request::Insert(list.into()));
    }
    assert_eq!(book.book().inner_tokens.len(), 4064);
    let mut by_insert = book.clone();

    // One more list of 32: 4096 tokens, the last that fit.
    let list = of_size(&mut random, 32);
    accepted(&mut by_insert, Request::Insert(list.into()));
    assert_eq!(by_insert.book().inner_tokens.len(), 4096);
    let list = of_size(&mut random, 2);
    refused(&mut by_insert, Request::Insert(list.into()), 8);
    // A set that is there needs no token.
    let there = by_insert.book().inner_vertices[100];
    accepted(&mut by_insert, Request::Insert(there.into()));
    let outside = UserSet::first(64).minus(there).users().next().unwrap();
    refused(&mut by_insert, Request::Grant(r(128), outside), 8);

    // Or 32 grants, one token each.
    let missing = UserSet::first(64).minus(book.book().resources[0].list);
    assert_eq!(missing.size(), 32);
    for user in missing.users() {
        accepted(&mut book, Request::Grant(r(0), user));
    }
    assert_eq!(book.book().inner_tokens.len(), 4096);
    let missing = UserSet::first(64).minus(book.book().resources[1].list);
    let user = missing.users().next().unwrap();
    refused(&mut book, Request::Grant(r(1), user), 8);
    // So does any list that is not there.
    let list = of_size(&mut random, 33);
    refused(&mut book, Request::Insert(list.into()), 8);
    // A revoke needs no inner token, and a grant to a holder neither.
    let user = book.book().resources[0].list.users().next().unwrap();
    accepted(&mut book, Request::Revoke(r(0), user));
    accepted(&mut book, Request::Grant(r(0), user));
}

#[test]
fn nine() {
    // Full mode: 126 lists of 32 make 4032 tokens in each layer, one of 33
    // makes 4065; a revoke from a list of 32 leaves a new set of 31, into
    // which 31 own vertices lead: 4096.
    let mut random = Random::new(9);
    let mut book = joined(Mode::Full, 64);
    for _ in 0..126 {
        let list = of_size(&mut random, 32);
        accepted(&mut book, Request::Insert(list.into()));
    }
    let list = of_size(&mut random, 33);
    accepted(&mut book, Request::Insert(list.into()));
    assert_eq!(book.book().inner_tokens.len(), 4065);
    assert_eq!(book.book().outer_tokens.len(), 4065);
    let first = |book: &SoundBook, r: usize| book.book().resources[r].list.users().next().unwrap();
    let user = first(&book, 0);
    accepted(&mut book, Request::Revoke(r(0), user));
    assert_eq!(book.book().outer_tokens.len(), 4096);

    let user = first(&book, 1);
    refused(&mut book, Request::Revoke(r(1), user), 9);
    let missing = UserSet::first(64).minus(book.book().resources[1].list);
    let outside = missing.users().next().unwrap();
    refused(&mut book, Request::Grant(r(1), outside), 9);
    let list = of_size(&mut random, 2);
    refused(&mut book, Request::Insert(list.into()), 9);
    // 33 tokens more are too many in both layers: 8 stands before 9.
    let list = of_size(&mut random, 33);
    refused(&mut book, Request::Insert(list.into()), 8);
    // What needs no token goes on: a set that is there.
    let there = book.book().resources[5].list;
    accepted(&mut book, Request::Insert(there.into()));
    // The empty set needs a vertex but no token.
    let own = set(&[3]);
    accepted(&mut book, Request::Insert(own.into()));
    let last = book.book().resources.len() as u16 - 1;
    accepted(&mut book, Request::Revoke(r(last), u(3)));
    assert_eq!(book.book().outer_tokens.len(), 4096);
}

#[test]
fn seven_before_eight_before_nine() {
    use fenstubble_reference::generate::{self, Shape};
    // A book with all three tables at their limits.
    let shape = Shape {
        mode: Mode::Full,
        users: 64,
        leavers: 0,
        resources: 200,
        inner_groups: 150,
        access_tokens: 100,
        outer_groups: 448,
        inner_tokens: 4096,
        outer_tokens: 4096,
        chains: true,
    };
    let mut random = Random::new(5);
    let mut met = 0;
    for _ in 0..20 {
        let book = generate::book(&mut random, &shape);
        let list = of_size(&mut random, 40);
        let inner = book.inner_tokens.len() + cover(&book.inner_vertices, list).len();
        let outer = book.outer_tokens.len() + cover(&book.outer_vertices, list).len();
        let over = [book.outer_groups() + 1 > 448, inner > 4096, outer > 4096];
        let expected = match over {
            [true, _, _] => 7,
            [false, true, _] => 8,
            [false, false, true] => 9,
            [false, false, false] => continue,
        };
        let mut book = SoundBook::new(book).unwrap();
        let request = Request::Insert(list.into());
        met += usize::from(over == [true; 3]);
        refused(&mut book, request, expected);
    }
    assert!(met > 0, "no request went over all three limits");
}

#[test]
fn longest_chain() {
    // Lists {0,1}, {0,1,2}, .. in full mode: each takes the one before and
    // one own vertex. User 0 opens the last by 63 rows in each layer.
    let mut book = joined(Mode::Full, 64);
    for count in 2..=64 {
        let orders = book.insert(UserSet::first(count), ALL).unwrap();
        assert_eq!(orders.len(), 8);
    }
    let chains = book.open(u(0), r(62), 126).unwrap();
    let expected: Vec<u16> = (0..63).map(|n| 2 * n).collect();
    assert_eq!(chains.inner, expected);
    assert_eq!(chains.outer, expected);
    assert_eq!(number(book.open(u(0), r(62), 125)), 10);
    assert_eq!(book.open(u(63), r(62), 2).unwrap().inner, [125]);
    // 11 stands before 10.
    assert_eq!(number(book.open(u(63), r(0), 0)), 11);
}

#[test]
fn many_neighbours() {
    // 256 folders of users 0 to 62 in delta mode; user 63 is granted the
    // last. One new outer vertex with 63 tokens, each of the 255 neighbours
    // locked with it, in ascending order, and then the one inner token.
    let mut book = joined(Mode::Delta, 64);
    for _ in 0..256 {
        book.insert(UserSet::first(63), ALL).unwrap();
    }
    assert_eq!(number(book.grant(r(255), u(63), 319)), 10);
    let orders = rows(book.grant(r(255), u(63), 320));
    assert_eq!(orders[0], [1, 64, 0]);
    let tokens: Vec<_> = (0..63).map(|user| [2, user, 64]).collect();
    assert_eq!(orders[1..64], tokens);
    let locks: Vec<_> = (0..255).map(|place| [3, place, 64]).collect();
    assert_eq!(orders[64..319], locks);
    assert_eq!(orders[319..], [[6, 63, 64]]);
    // Granting the rest one by one unlocks each.
    for place in 0..255 {
        assert_eq!(rows(book.grant(r(place), u(63), 1)), [[3, place, 65535]]);
    }
    assert_eq!(sound(book.book()), Ok(()));
}
