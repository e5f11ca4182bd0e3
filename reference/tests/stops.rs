//! A host that stops anywhere in a request's orders (RULES 6.6), and goes on
//! (RULES 6.7): random runs, and all runs in a tiny world, in which every stop
//! is looked at; and the same with orders that stand otherwise.

mod common;

use std::collections::{BTreeMap, BTreeSet};

use common::{joined, p2, r, readers, set, u, ALL};
use fenstubble_reference::book::{Book, Mode, SoundBook};
use fenstubble_reference::bytes;
use fenstubble_reference::generate::{self, Random, Shape};
use fenstubble_reference::host::{Host, Task};
use fenstubble_reference::numbers::{Resource, User};
use fenstubble_reference::requests::{Answer, Request};
use fenstubble_reference::sets::UserSet;
use fenstubble_reference::stops::{Breach, Watch};

type Rows = Vec<[u16; 3]>;

const NOT_OBEYED: &str = "an order that can not be obeyed";
const OTHER_OPEN: &str = "another folder open to somebody not on its list";
const OTHER_SHUT: &str = "another folder shut to somebody on its list";
const CHANGED_OPEN: &str = "a changed folder open to somebody on neither list";
const CHANGED_SHUT: &str = "a changed folder shut to somebody on both lists";
const AGAIN: &str = "another host after going on";
const END: &str = "another host in the end than the book says";

fn kind(breach: &Breach) -> &'static str {
    match breach {
        Breach::NotObeyed(_) => NOT_OBEYED,
        Breach::OtherOpen(..) => OTHER_OPEN,
        Breach::OtherShut(..) => OTHER_SHUT,
        Breach::ChangedOpen(..) => CHANGED_OPEN,
        Breach::ChangedShut(..) => CHANGED_SHUT,
        Breach::Again(..) => AGAIN,
        Breach::End(_) => END,
    }
}

const BOTH_NEW: &str = "grant that locks a neighbour and its folder, both with new vertices";

/// What a run did and met.
#[derive(Debug, Default)]
struct Tally {
    requests: usize,
    stops: usize,
    /// Times that an order was obeyed again.
    again: usize,
    /// How many requests were of each case.
    cases: BTreeMap<&'static str, usize>,
    /// How many breaches of each kind.
    breaches: BTreeMap<&'static str, usize>,
    /// The first breach, and where it was found.
    first: Option<(Request, Rows, Breach)>,
}

impl Tally {
    /// Looks at every stop of a request, and at going on from each.
    fn watch(&mut self, host: &Host, books: [&Book; 2], request: &Request, task: Task) {
        let [before, after] = books;
        let rows = task.rows.clone();
        let mut found = Vec::new();
        match Watch::of(host.clone(), before, request, task) {
            Err(breach) => found.push(breach),
            Ok(watch) => {
                for stop in 0..=watch.last() {
                    for user in after.joined().users() {
                        found.extend(watch.stop(stop, user));
                    }
                    found.extend(watch.again(stop).err());
                    self.stops += 1;
                    self.again += watch.last();
                }
                found.extend(watch.end(after).err());
            }
        }
        self.requests += 1;
        for breach in found {
            *self.breaches.entry(kind(&breach)).or_default() += 1;
            self.first.get_or_insert((*request, rows.clone(), breach));
        }
    }

    /// The kinds of breaches that were found.
    fn kinds(&self) -> Vec<&'static str> {
        self.breaches.keys().copied().collect()
    }
}

/// The cases that a request with these orders could be of, and whether it is.
/// `revoked` are those who were taken off a list and have not come back.
fn cases(
    book: &Book,
    request: &Request,
    rows: &[[u16; 3]],
    revoked: &BTreeSet<(Resource, User)>,
) -> Vec<(&'static str, bool)> {
    let delta = book.mode == Mode::Delta.number();
    let of = |kind: u16| rows.iter().filter(move |row| row[0] == kind);
    let has = |kind: u16| of(kind).next().is_some();
    let list = |r: Resource| book.resources[r.index()].list;
    let others = |r: Resource| of(3).filter(|row| row[1] != r.0).count();
    let locks = |r: Resource| of(3).any(|row| row[1] == r.0 && row[2] != 65535);
    let mut all = vec![("any, with revoked holders about", !revoked.is_empty())];
    all.extend(match *request {
        Request::Join => vec![("join where folders are", !book.resources.is_empty())],
        Request::Insert(_) => vec![
            ("insert in delta with a lock", delta && has(3)),
            (
                "insert in delta with a lock on a new vertex",
                delta && has(1),
            ),
            (
                "insert in full with two new vertices",
                !delta && has(4) && has(1),
            ),
        ],
        Request::Grant(r, u) => vec![
            ("grant with a token", has(6)),
            ("grant that locks a neighbour", others(r) > 0),
            ("grant that locks several neighbours", others(r) > 1),
            (
                "grant that locks a neighbour and its folder",
                others(r) > 0 && locks(r),
            ),
            (BOTH_NEW, others(r) > 0 && of(1).count() == 2),
            ("grant that unlocks", has(3) && !locks(r)),
            ("grant to a revoked holder", revoked.contains(&(r, u))),
            ("grant of a folder with an empty list", list(r).is_empty()),
        ],
        Request::Revoke(r, _) => vec![
            ("revoke that locks with a new vertex", has(1)),
            ("revoke that empties the list", list(r).size() == 1),
        ],
        Request::Leave(u) => {
            let lists = book.resources.iter().map(|row| row.list);
            let named: Vec<UserSet> = lists.filter(|list| list.names(u)).collect();
            vec![
                ("leave that changes no folder", named.is_empty()),
                ("leave that changes several folders", named.len() > 1),
                ("leave that makes several vertices", of(1).count() > 1),
                (
                    "leave that uses a vertex again",
                    of(3).count() > of(1).count(),
                ),
                (
                    "leave that empties a list",
                    named.contains(&UserSet::alone(u)),
                ),
                ("leave of the last one", book.staying() == UserSet::alone(u)),
                ("leave after another", !book.leavers.is_empty()),
            ]
        }
        Request::Open(..) => vec![],
    });
    all
}

/// Looks at so many stops, or some more, in random runs. `put` says how the
/// rows of a request stand when they are obeyed; the next request finds the
/// host in step with the book all the same.
fn run(seed: u64, stops: usize, put: fn(&Request, Rows) -> Rows) -> Tally {
    let mut random = Random::new(seed);
    let mut tally = Tally::default();
    while tally.stops < stops {
        let most_users = random.between(3, 8);
        let (start, first_users) = match random.below(3) {
            0 => (Book::empty(Mode::Full), random.between(0, most_users)),
            1 => (Book::empty(Mode::Delta), random.between(0, most_users)),
            _ => {
                let shape = Shape::small(&mut random);
                (generate::book(&mut random, &shape), 0)
            }
        };
        let mut host = Host::of(&start, random.next()).unwrap();
        let mut book = SoundBook::new(start).unwrap();
        let mut revoked = BTreeSet::new();
        for _ in 0..random.between(20, 60) + first_users {
            let before = book.book().clone();
            let request = if usize::from(before.users) < first_users {
                Request::Join
            } else {
                generate::request(&mut random, &before, most_users)
            };
            let Ok(Answer::Orders(orders)) = book.answer(&request, ALL) else {
                continue;
            };
            let task = Task::of(&before, &request, &orders);
            for (case, held) in cases(&before, &request, &task.rows, &revoked) {
                *tally.cases.entry(case).or_default() += usize::from(held);
            }
            match request {
                Request::Grant(r, u) => revoked.remove(&(r, u)),
                Request::Revoke(r, u) => revoked.insert((r, u)),
                Request::Leave(u) => {
                    let lists = before.resources.iter().enumerate();
                    let named = lists.filter(|(_, row)| row.list.names(u));
                    revoked.extend(named.map(|(place, _)| (Resource::at(place), u)));
                    true
                }
                _ => false,
            };
            let rows = put(&request, task.rows.clone());
            let joiner = task.joiner;
            tally.watch(
                &host,
                [&before, book.book()],
                &request,
                Task { rows, joiner },
            );
            host.execute(&task).unwrap();
        }
    }
    tally
}

/// As RULES 6.2 has them.
fn as_given(_: &Request, rows: Rows) -> Rows {
    rows
}

#[test]
fn every_stop_is_safe() {
    let tally = run(1, 500_000, as_given);
    println!("{tally:#?}");
    assert_eq!(tally.first, None);
    assert!(tally.stops >= 500_000 && tally.again >= tally.stops);
    assert_eq!(tally.cases.len(), 22);
    for (case, met) in tally.cases {
        assert!(met >= 100, "{case}: {met}");
    }
}

/// Every request that a world of so many users and folders allows.
fn every_request(book: &Book, users: u16, folders: usize) -> Vec<Request> {
    let mut all = Vec::new();
    if book.users < users {
        all.push(Request::Join);
    }
    if book.resources.len() < folders {
        all.extend((1..=book.joined().0).map(|bits| Request::Insert(UserSet(bits).into())));
    }
    for place in 0..book.resources.len() {
        for user in book.joined().users() {
            all.push(Request::Grant(Resource::at(place), user));
            all.push(Request::Revoke(Resource::at(place), user));
        }
    }
    all.extend(book.joined().users().map(Request::Leave));
    all
}

/// Looks at every stop of every run from the empty book in a world of so many
/// users and folders: of every request on every book that requests lead to.
fn every_run(mode: Mode, users: u16, folders: usize) -> Tally {
    let mut tally = Tally::default();
    let mut seen = BTreeSet::from([bytes::write(&Book::empty(mode))]);
    let mut next = vec![SoundBook::empty(mode)];
    while let Some(book) = next.pop() {
        let host = Host::of(book.book(), 5).unwrap();
        for request in every_request(book.book(), users, folders) {
            let mut after = book.clone();
            let Ok(Answer::Orders(orders)) = after.answer(&request, ALL) else {
                continue;
            };
            let task = Task::of(book.book(), &request, &orders);
            tally.watch(&host, [book.book(), after.book()], &request, task);
            if seen.insert(bytes::write(after.book())) {
                next.push(after);
            }
        }
    }
    println!("{mode:?}, {} books: {tally:?}", seen.len());
    tally
}

#[test]
fn every_run_of_two_users_and_three_folders() {
    for mode in [Mode::Full, Mode::Delta] {
        let tally = every_run(mode, 2, 3);
        assert_eq!(tally.first, None);
        assert!(tally.stops > 100_000);
    }
}

#[test]
#[ignore = "a quarter of an hour, and two gigabytes"]
fn every_run_of_three_users_and_two_folders() {
    for mode in [Mode::Full, Mode::Delta] {
        let tally = every_run(mode, 3, 2);
        assert_eq!(tally.first, None);
        assert!(tally.stops > 80_000_000);
    }
}

/// A grant's token goes up first.
fn token_first(request: &Request, mut rows: Rows) -> Rows {
    if matches!(request, Request::Grant(..)) {
        rows.sort_by_key(|row| row[0] != 6);
    }
    rows
}

#[test]
fn a_token_that_goes_up_first_opens_the_neighbours() {
    let tally = run(2, 100_000, token_first);
    println!("{tally:#?}");
    assert_eq!(tally.kinds(), [OTHER_OPEN]);
    assert!(tally.breaches[OTHER_OPEN] >= 100);
}

/// A new folder is encrypted before it is locked.
fn folder_first(request: &Request, mut rows: Rows) -> Rows {
    if matches!(request, Request::Insert(_)) {
        rows.sort_by_key(|row| match row[0] {
            4 | 5 => 0,
            7 => 1,
            _ => 2,
        });
    }
    rows
}

#[test]
fn a_folder_that_is_encrypted_first_is_open_too_far() {
    let tally = run(3, 100_000, folder_first);
    println!("{tally:#?}");
    assert_eq!(tally.kinds(), [CHANGED_OPEN]);
    assert!(tally.breaches[CHANGED_OPEN] >= 100);
}

/// A leave locks a folder before the tokens to its lock are published.
fn lock_first(request: &Request, mut rows: Rows) -> Rows {
    if let Request::Leave(_) = request {
        while let Some(at) = rows
            .windows(2)
            .position(|two| two[0][0] == 2 && two[1][0] == 3)
        {
            rows.swap(at, at + 1);
        }
    }
    rows
}

#[test]
fn a_lock_before_its_tokens_shuts_out_those_who_stay() {
    let tally = run(5, 100_000, lock_first);
    println!("{tally:#?}");
    assert_eq!(tally.kinds(), [CHANGED_SHUT]);
    assert!(tally.breaches[CHANGED_SHUT] >= 100);
}

/// A leave takes the leaver off the first folder alone.
fn first_folder(request: &Request, mut rows: Rows) -> Rows {
    if let Request::Leave(_) = request {
        let first = rows.iter().position(|row| row[0] == 3);
        rows.truncate(first.map_or(0, |at| at + 1));
    }
    rows
}

#[test]
fn a_leave_from_the_first_folder_is_not_the_books() {
    // Each stop is safe: the leaver was on these lists. The end is another.
    let tally = run(6, 100_000, first_folder);
    println!("{tally:#?}");
    assert_eq!(tally.kinds(), [END]);
    assert_eq!(
        tally.breaches[END],
        tally.cases["leave that changes several folders"]
    );
}

/// A grant locks its own folder before the neighbours, and the new outer
/// vertices are numbered as they are made then.
fn own_first(request: &Request, mut rows: Rows) -> Rows {
    let Request::Grant(r, _) = request else {
        return rows;
    };
    let made = |rows: &Rows| -> Vec<u16> {
        let new = rows.iter().filter(|row| row[0] == 1);
        new.map(|row| row[1]).collect()
    };
    let numbers = made(&rows);
    let neighbours = rows.iter().rposition(|row| row[0] == 3 && row[1] != r.0);
    let lock = rows.iter().position(|row| row[0] == 3 && row[1] == r.0);
    if let (Some(neighbours), Some(lock)) = (neighbours, lock) {
        rows[..=lock].rotate_left(neighbours + 1);
    }
    let moved = made(&rows);
    let number = |vertex: u16| match moved.iter().position(|&new| new == vertex) {
        Some(place) => numbers[place],
        None => vertex,
    };
    for row in &mut rows {
        *row = match *row {
            [1, v, 0] => [1, number(v), 0],
            [2, from, to] => [2, number(from), number(to)],
            [3, r, v] => [3, r, number(v)],
            other => other,
        };
    }
    rows
}

#[test]
fn the_own_folder_first_is_safe_but_numbered_otherwise() {
    let tally = run(4, 100_000, own_first);
    println!("{tally:#?}");
    // No stop lets anybody in or keeps anybody out, and going on is the same.
    // But exactly where both have new vertices these and their tokens are
    // numbered otherwise.
    assert_eq!(tally.kinds(), [END]);
    assert_eq!(tally.breaches[END], tally.cases[BOTH_NEW]);
    assert!(tally.breaches[END] >= 100);
}

/// The book and host of P2, the request of P3 and the book it leaves.
fn p3() -> (Book, Host, Request, Book, Task) {
    let mut book = p2();
    let before = book.book().clone();
    let orders = book.grant(r(0), u(2), ALL).unwrap();
    let request = Request::Grant(r(0), u(2));
    let task = Task::of(&before, &request, &orders);
    let host = Host::of(&before, 3).unwrap();
    (before, host, request, book.into_book(), task)
}

#[test]
fn p3_stop_by_stop() {
    let (before, host, request, after, task) = p3();
    let old = Task {
        rows: token_first(&request, task.rows.clone()),
        joiner: None,
    };
    let watch = Watch::of(host.clone(), &before, &request, task).unwrap();
    for stop in 0..=5 {
        let new: &[u16] = if stop < 5 { &[0, 1] } else { &[0, 1, 2] };
        assert_eq!(readers(watch.host(stop), 3, 0), set(new), "{stop}");
        assert_eq!(readers(watch.host(stop), 3, 1), set(&[0, 1]), "{stop}");
    }
    // With the token first, folder 1 is open to 2 until it is locked.
    let watch = Watch::of(host, &before, &request, old).unwrap();
    for stop in 0..=5 {
        let open = (1..=4).contains(&stop);
        let breaches = if open {
            vec![Breach::OtherOpen(stop, r(1), u(2))]
        } else {
            vec![]
        };
        assert_eq!(watch.stop(stop, u(2)), breaches);
        assert_eq!(readers(watch.host(stop), 3, 1).names(u(2)), open);
    }
    assert!(watch.end(&after).is_ok());
}

#[test]
fn the_largest_grant() {
    // 256 folders of users 0 to 62, as in limits.rs: 320 orders.
    let mut book = joined(Mode::Delta, 64);
    for _ in 0..256 {
        book.insert(UserSet::first(63), ALL).unwrap();
    }
    let before = book.book().clone();
    let request = Request::Grant(r(255), u(63));
    let orders = book.grant(r(255), u(63), ALL).unwrap();
    let task = Task::of(&before, &request, &orders);
    let host = Host::of(&before, 4).unwrap();
    for (put, kinds) in [
        (as_given as fn(&_, _) -> _, vec![]),
        (token_first, vec![OTHER_OPEN]),
    ] {
        let mut tally = Tally::default();
        let task = Task {
            rows: put(&request, task.rows.clone()),
            joiner: None,
        };
        tally.watch(&host, [&before, book.book()], &request, task);
        assert_eq!((tally.stops, tally.kinds()), (321, kinds));
    }
}

#[test]
fn every_kind_of_breach_is_told() {
    let (before, host, request, after, task) = p3();
    let given = task.rows.clone();
    assert_eq!(
        given,
        [[1, 3, 0], [2, 0, 3], [2, 1, 3], [3, 1, 3], [6, 2, 3]]
    );
    let kinds = |rows: Rows| {
        let mut tally = Tally::default();
        let task = Task { rows, joiner: None };
        tally.watch(&host, [&before, &after], &request, task);
        tally.kinds()
    };
    let with = |at: usize, rows: &[[u16; 3]]| {
        let mut all = given.clone();
        all.splice(at..at, rows.iter().copied());
        all
    };
    assert_eq!(kinds(given.clone()), [""; 0]);
    // A token before the key it leads to.
    let mut swapped = given.clone();
    swapped.swap(0, 1);
    assert_eq!(kinds(swapped), [NOT_OBEYED]);
    // Folder 1 locked for {2} first: shut to its readers, and twice relocked.
    assert_eq!(kinds(with(0, &[[3, 1, 2]])), [OTHER_SHUT, AGAIN]);
    // Folder 0, which 0 and 1 keep, locked for {2} and unlocked again.
    let there_and_back = with(0, &[[3, 0, 2], [3, 0, 65535]]);
    assert_eq!(kinds(there_and_back), [CHANGED_SHUT, AGAIN]);
    // One order less.
    assert_eq!(kinds(given[..4].to_vec()), [END]);
    // A token for 2 to the derivation key opens what the other does.
    let mut slip = given.clone();
    slip[4] = [5, 2, 3];
    assert_eq!(kinds(slip), [END]);
    // A neighbour that is not locked.
    let mut missed = given.clone();
    missed.remove(3);
    assert_eq!(kinds(missed), [OTHER_OPEN, END]);
}
