//! Each rule of the sound book, broken alone, is named.

mod common;

use common::{inner, joined, outer, p5, resource, set};
use fenstubble_reference::book::{Book, Mode, SoundBook};
use fenstubble_reference::bytes;
use fenstubble_reference::lent::{self, Store};
use fenstubble_reference::numbers::OuterVertex;
use fenstubble_reference::sets::UserSet;
use fenstubble_reference::sound::{broken_rules, possible, sound, Rule};

/// The change breaks these rules and no others; the first is named, also by
/// the lent face, and told of the bytes, unless their mode or counts come
/// before.
fn breaks(what: &str, rules: &[Rule], change: impl FnOnce(&mut Book)) {
    let mut book = p5().into_book();
    assert_eq!(sound(&book), Ok(()));
    change(&mut book);
    assert_eq!(broken_rules(&book), rules, "{what}");
    assert_eq!(sound(&book), Err(rules[0]), "{what}");
    assert_eq!(SoundBook::new(book.clone()), Err(rules[0]), "{what}");
    let mut store = Store::of(&book, 0);
    let head = book.head();
    let named = lent::broken_rule(&head, &store.lend());
    assert_eq!(named, Ok(Some(rules[0])), "{what}");
    if book.mode < 256 && book.users < 256 {
        let expected = match (possible(&head), book.mode) {
            (true, _) => 30 + rules[0].number(),
            (false, 0 | 1) => 23,
            (false, _) => 22,
        };
        let fault = bytes::read(&bytes::write(&book)).unwrap_err();
        assert_eq!(fault.number(), expected, "{what}");
    }
}

/// The change leaves a sound book.
fn keeps(what: &str, change: impl FnOnce(&mut Book)) {
    let mut book = p5().into_book();
    change(&mut book);
    assert_eq!(sound(&book), Ok(()), "{what}");
    assert_eq!(broken_rules(&book), [], "{what}");
    let read = bytes::read(&bytes::write(&book)).unwrap();
    assert_eq!(read.book(), &book, "{what}");
}

#[test]
fn s1() {
    let s1 = |what, change: &dyn Fn(&mut Book)| breaks(what, &[Rule::S1], change);
    s1("mode 2", &|b| b.mode = 2);
    s1("mode 256", &|b| b.mode = 256);
    s1("65 users", &|b| b.users = 65);
    s1("65535 users", &|b| b.users = 65535);
    s1("kind 2", &|b| b.inner_tokens[0].kind = 2);
    s1("kind 255", &|b| b.inner_tokens[2].kind = 255);
    s1("from no vertex", &|b| b.inner_tokens[0].from.0 = 4);
    s1("to no vertex", &|b| b.inner_tokens[2].to.0 = 65535);
    s1("outer from no vertex", &|b| b.outer_tokens[3].from.0 = 5);
    s1("outer to no vertex", &|b| b.outer_tokens[3].to.0 = 65535);
    s1("no inner key", &|b| b.resources[0].inner.0 = 4);
    s1("inner key 65535", &|b| b.resources[0].inner.0 = 65535);
    s1("outer key 5", &|b| {
        b.resources[0].outer = Some(OuterVertex(5))
    });
    s1("outer key 65534", &|b| {
        b.resources[0].outer = Some(OuterVertex(65534));
    });
    s1("inner set names no user", &|b| {
        b.inner_vertices[3].0 |= 1 << 3
    });
    s1("outer set names no user", &|b| {
        b.outer_vertices[3].0 |= 1 << 63
    });
    s1("list names no user", &|b| b.resources[1].list.0 |= 1 << 3);
    s1("leavers name no user", &|b| b.leavers.0 |= 1 << 3);
    s1("leavers name user 63", &|b| b.leavers.0 |= 1 << 63);
    // 0 is on both lists, 2 on the first, 1 on the second.
    for user in 0..3 {
        s1("a list names a leaver", &|b| b.leavers = set(&[user]));
    }
    keeps("a leaver on no list", |b| {
        b.leavers = set(&[2]);
        b.resources[0] = resource(&[0], 3, Some(0));
    });
    keeps("all have left", |b| {
        b.leavers = set(&[0, 1, 2]);
        b.resources.clear();
        b.inner_vertices.pop();
        b.inner_tokens.clear();
    });
    s1("257 resources", &|b| {
        b.resources = vec![resource(&[0], 0, None); 257];
    });
    s1("4097 inner tokens", &|b| {
        b.inner_tokens = vec![inner(0, 3, 0); 4097];
    });
    s1("4097 outer tokens", &|b| {
        b.outer_tokens = vec![outer(0, 3); 4097];
    });
    s1("70000 outer tokens", &|b| {
        b.outer_tokens = vec![outer(0, 3); 70_000];
    });
    s1("452 outer vertices of 3 users", &|b| {
        b.outer_vertices = vec![set(&[0]); 452];
    });
    // 3 users and 2 resources: 5 inner vertices, not 6.
    s1("6 inner vertices", &|b| {
        b.inner_vertices.extend([set(&[0, 2]), set(&[1, 2])]);
        b.inner_tokens.extend([
            inner(0, 4, 0),
            inner(2, 4, 0),
            inner(1, 5, 0),
            inner(2, 5, 0),
        ]);
    });
    keeps("5 inner vertices", |b| {
        b.inner_vertices.push(set(&[0, 2]));
        b.inner_tokens.extend([inner(0, 4, 0), inner(2, 4, 0)]);
    });
    // 10 users have 1013 groups; 448 are sound, 449 are not.
    for (groups, result) in [(448, Ok(())), (449, Err(Rule::S1))] {
        let mut book = joined(Mode::Delta, 10).into_book();
        for bits in (0..1024u64)
            .filter(|bits| bits.count_ones() != 1)
            .take(groups)
        {
            let vertex = book.outer_vertices.len() as u16;
            book.outer_vertices.push(UserSet(bits));
            let users = UserSet(bits).users();
            book.outer_tokens
                .extend(users.map(|user| outer(user.0, vertex)));
        }
        assert_eq!(sound(&book), result, "{groups} groups");
    }
}

#[test]
fn s2() {
    breaks("a user without own vertices", &[Rule::S2], |b| b.users = 4);
    breaks("a user without inner vertex", &[Rule::S2], |b| {
        b.users = 4;
        b.outer_vertices.push(set(&[3]));
    });
    breaks("a user without outer vertex", &[Rule::S2], |b| {
        b.users = 4;
        b.inner_vertices.push(set(&[3]));
    });
    breaks("an empty inner set", &[Rule::S2], |b| {
        b.inner_vertices.push(UserSet::EMPTY);
    });
    // A token into an own vertex can not lead to a larger set.
    breaks("a token into an own vertex", &[Rule::S2, Rule::S4], |b| {
        b.inner_tokens.push(inner(2, 2, 0));
    });
    breaks(
        "an outer token into an own vertex",
        &[Rule::S2, Rule::S4],
        |b| {
            b.outer_tokens.push(outer(2, 2));
        },
    );
    // With two vertices of that set, a token into either.
    breaks(
        "the second own vertex entered",
        &[Rule::S2, Rule::S3, Rule::S4],
        |b| {
            b.outer_vertices.push(set(&[2]));
            b.outer_tokens.push(outer(2, 5));
        },
    );
    keeps("a kind 1 token may enter an own vertex", |b| {
        b.inner_tokens.push(inner(2, 0, 1));
    });
    keeps("an empty outer set", |b| {
        b.outer_vertices.push(UserSet::EMPTY)
    });
}

#[test]
fn s3() {
    breaks("equal inner groups", &[Rule::S3], |b| {
        b.inner_vertices.push(set(&[0, 1]));
        b.inner_tokens.extend([inner(0, 4, 0), inner(1, 4, 0)]);
    });
    breaks("equal outer groups", &[Rule::S3], |b| {
        b.outer_vertices.push(set(&[0, 2]));
        b.outer_tokens.extend([outer(2, 5), outer(0, 5)]);
    });
    breaks("two empty outer sets", &[Rule::S3], |b| {
        b.outer_vertices.extend([UserSet::EMPTY; 2]);
    });
    breaks("two own vertices", &[Rule::S3], |b| {
        b.inner_vertices.push(set(&[1]));
    });
}

#[test]
fn s4() {
    breaks("from the empty set", &[Rule::S4], |b| {
        b.outer_vertices.push(UserSet::EMPTY);
        b.outer_tokens.push(outer(5, 3));
    });
    breaks("to itself", &[Rule::S4], |b| {
        b.inner_tokens.push(inner(3, 3, 0))
    });
    breaks("outer to itself", &[Rule::S4], |b| {
        b.outer_tokens.push(outer(4, 4))
    });
    breaks(
        "to a set that does not contain it",
        &[Rule::S4, Rule::S5],
        |b| {
            b.outer_tokens.push(outer(3, 4));
        },
    );
    // Two equal sets leading to each other: not strictly larger.
    breaks("to an equal set", &[Rule::S3, Rule::S4], |b| {
        b.outer_vertices.push(set(&[0, 2]));
        b.outer_tokens
            .extend([outer(0, 5), outer(2, 5), outer(4, 5)]);
    });
}

#[test]
fn s5() {
    breaks("an outer token missing", &[Rule::S5], |b| {
        b.outer_tokens.remove(1);
    });
    breaks("a group without tokens", &[Rule::S5], |b| {
        b.outer_vertices.push(set(&[1, 2]));
    });
    breaks("an inner group without a token", &[Rule::S5], |b| {
        b.inner_vertices.push(set(&[1, 2]));
        b.inner_tokens.push(inner(1, 4, 0));
    });
    // A kind 1 token is none of those that count.
    breaks("a kind 1 token instead", &[Rule::S5, Rule::S6], |b| {
        b.inner_tokens[1].kind = 1;
    });
    keeps("more tokens than needed", |b| {
        b.outer_vertices.push(set(&[0, 1, 2]));
        let all = [
            outer(3, 5),
            outer(4, 5),
            outer(0, 5),
            outer(1, 5),
            outer(2, 5),
        ];
        b.outer_tokens.extend(all);
    });
}

#[test]
fn s6() {
    breaks("kind 1 from a group", &[Rule::S6], |b| {
        b.inner_tokens.push(inner(3, 2, 1));
    });
    breaks("kind 1 to a set with the user", &[Rule::S6], |b| {
        b.inner_tokens.push(inner(0, 3, 1));
    });
    breaks("kind 1 to the own vertex", &[Rule::S6], |b| {
        b.inner_tokens.push(inner(2, 2, 1));
    });
    breaks("a kind 0 row twice", &[Rule::S6], |b| {
        b.inner_tokens.push(inner(0, 3, 0))
    });
    breaks("a kind 1 row twice", &[Rule::S6], |b| {
        b.inner_tokens.push(inner(2, 3, 1))
    });
    breaks("an outer row twice", &[Rule::S6], |b| {
        b.outer_tokens.push(outer(2, 4))
    });
    keeps("a spare kind 1 row", |b| {
        b.inner_tokens.push(inner(0, 2, 1))
    });
}

#[test]
fn s7() {
    breaks("a list beyond the holders", &[Rule::S7], |b| {
        b.resources.push(resource(&[0, 1], 0, Some(3)));
    });
    // User 2 reads resource 0 by the kind 1 row alone.
    breaks("the kind 1 row missing", &[Rule::S7, Rule::S8], |b| {
        b.inner_tokens.pop();
    });
    keeps("a list within the holders of an own vertex", |b| {
        b.inner_tokens.push(inner(1, 0, 1));
        b.resources.push(resource(&[0, 1], 0, None));
    });
}

#[test]
fn s8() {
    breaks(
        "delta, unlocked though the holders are more",
        &[Rule::S8],
        |b| {
            b.resources[0].outer = None;
        },
    );
    breaks("locked for another set", &[Rule::S8], |b| {
        b.resources[0].outer = Some(OuterVertex(3));
    });
    breaks("locked for a larger set", &[Rule::S8], |b| {
        b.resources.push(resource(&[0], 3, Some(3)));
    });
    breaks(
        "delta, locked though the holders are the list",
        &[Rule::S8],
        |b| {
            b.resources.push(resource(&[0], 0, Some(0)));
        },
    );
    breaks("full, unlocked", &[Rule::S8], |b| {
        b.mode = 0;
        b.resources.push(resource(&[0], 0, None));
    });
    breaks("an emptied list without a key", &[Rule::S8], |b| {
        b.resources.push(resource(&[], 0, None));
    });
    // Judged by the tokens, not by the stored set: the kind 1 row makes the
    // holders of {0} two.
    breaks(
        "delta, the stored set is the list but the holders are more",
        &[Rule::S8],
        |b| {
            b.inner_tokens.push(inner(1, 0, 1));
            b.resources.push(resource(&[0], 0, None));
        },
    );
    keeps("full, all locked", |b| {
        b.mode = 0;
        b.resources.push(resource(&[0], 0, Some(0)));
    });
    keeps("an emptied list with the empty key", |b| {
        b.outer_vertices.push(UserSet::EMPTY);
        b.resources.push(resource(&[], 0, Some(5)));
    });
}
