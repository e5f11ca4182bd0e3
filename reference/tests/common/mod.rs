//! What several tests use.
#![allow(dead_code)]

use fenstubble_reference::book::{InnerToken, Mode, OuterToken, ResourceRow, SoundBook};
use fenstubble_reference::host::Host;
use fenstubble_reference::numbers::{InnerVertex, OuterVertex, Resource, User};
use fenstubble_reference::program;
use fenstubble_reference::refusal::Refusal;
use fenstubble_reference::requests::Order;
use fenstubble_reference::sets::UserSet;

/// Room for every order.
pub const ALL: usize = usize::MAX;

/// The program's output for an input.
pub fn output(input: impl AsRef<[u8]>) -> String {
    let mut out = Vec::new();
    program::run(input.as_ref(), &mut out).unwrap();
    String::from_utf8(out).unwrap()
}

/// Runs a script; every answer must be the one beside its request. Rows are
/// parted by `; `, as in the documents; an accepted request is given by its
/// rows alone, `ok` stands for no rows.
pub fn script(mode: &str, steps: &[(&str, &str)]) {
    let mut input = format!("{mode}\n");
    let mut expected = String::new();
    for (request, answer) in steps {
        input += request;
        input += "\n";
        if answer.starts_with("no ") {
            expected += answer;
            expected += "\n";
        } else if *answer == "ok" {
            expected += "ok 0\n";
        } else {
            let rows: Vec<&str> = answer.split("; ").collect();
            expected += &format!("ok {}\n{}\n", rows.len(), rows.join("\n"));
        }
    }
    let got = output(&input);
    if got != expected {
        let line = got.lines().zip(expected.lines()).position(|(a, b)| a != b);
        panic!("first difference at line {line:?}\n--- got\n{got}\n--- expected\n{expected}");
    }
}

/// A book with so many users.
pub fn joined(mode: Mode, users: usize) -> SoundBook {
    let mut book = SoundBook::empty(mode);
    for _ in 0..users {
        book.join(2).unwrap();
    }
    book
}

/// P1 and P2: users 0 to 2, and two folders of {0,1}. Inner vertices {0}, {1},
/// {2}, {0,1}, with tokens 0 to 3 and 1 to 3; outer vertices {0}, {1}, {2};
/// no locks.
pub fn p2() -> SoundBook {
    let mut book = joined(Mode::Delta, 3);
    book.insert(set(&[0, 1]), ALL).unwrap();
    book.insert(set(&[0, 1]), ALL).unwrap();
    book
}

/// P1 to P5. Inner vertices {0}, {1}, {2}, {0,1}; tokens 0 to 3, 1 to 3, and
/// 2 to 3 of kind 1. Outer vertices {0}, {1}, {2}, {0,1}, {0,2}; tokens 0 and
/// 1 to 3, 0 and 2 to 4. Resource 0 has list {0,2}, keys 3 and 4; resource 1
/// has {0,1}, 3 and 3.
pub fn p5() -> SoundBook {
    let mut book = p2();
    book.grant(r(0), u(2), ALL).unwrap();
    book.revoke(r(0), u(1), ALL).unwrap();
    book
}

/// A row of the inner tokens.
pub fn inner(from: u16, to: u16, kind: u8) -> InnerToken {
    InnerToken {
        from: InnerVertex(from),
        to: InnerVertex(to),
        kind,
    }
}

/// A row of the outer tokens.
pub fn outer(from: u16, to: u16) -> OuterToken {
    OuterToken {
        from: OuterVertex(from),
        to: OuterVertex(to),
    }
}

/// A row of the resources.
pub fn resource(list: &[u16], inner: u16, outer: Option<u16>) -> ResourceRow {
    ResourceRow {
        list: set(list),
        inner: InnerVertex(inner),
        outer: outer.map(OuterVertex),
    }
}

/// A set of users.
pub fn set(users: &[u16]) -> UserSet {
    users.iter().map(|&user| User(user)).collect()
}

/// A user.
pub fn u(number: u16) -> User {
    User(number)
}

/// A resource.
pub fn r(number: u16) -> Resource {
    Resource(number)
}

/// Who of so many users opens the folder at the host.
pub fn readers(host: &Host, users: u16, folder: usize) -> UserSet {
    let opens = |user: &User| host.opens(&host.derive(*user), folder);
    UserSet::first(users).users().filter(opens).collect()
}

/// Orders as rows.
pub fn rows(orders: Result<Vec<Order>, Refusal>) -> Vec<[u16; 3]> {
    orders.unwrap().into_iter().map(Order::row).collect()
}

/// The number of a refusal.
pub fn number<T: std::fmt::Debug>(result: Result<T, Refusal>) -> u8 {
    result.unwrap_err().number
}
