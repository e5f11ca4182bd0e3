//! What is wrong with a book's bytes, and where: each number, and each rule of
//! which comes first.

mod common;

use common::{inner, joined, outer, p5, resource, set, ALL};
use fenstubble_reference::book::{Book, Mode};
use fenstubble_reference::bytes::{self, Version};
use fenstubble_reference::lent::{self, Store};
use fenstubble_reference::numbers::OuterVertex;
use fenstubble_reference::refusal::Refusal;
use fenstubble_reference::sets::UserSet;

/// The place of a missing vertex.
const MISSING: usize = 65535;

/// The number and the place, the same from reading and from every section.
fn told(bytes: &[u8]) -> (u8, usize) {
    let fault = bytes::read(bytes).expect_err("a book");
    let (number, place) = (fault.number(), fault.place());
    let no = Refusal::misread(number, place);
    for k in [0, 1, 2, 3, 4, 5, 65535] {
        assert_eq!(bytes::section(bytes, k), Err(no));
        let (mut cell, mut second) = (77, 77);
        assert!(lent::section(bytes, k, &mut cell, &mut second).is_empty());
        assert_eq!((cell, second), (u16::from(number), place));
    }
    let mut store = Store::filled(0x3D);
    assert_eq!(lent::read(bytes, &mut store.lend()), Err(no));
    assert_eq!(store, Store::filled(0x3D));
    // A table that is too short comes before.
    store.parts[4].pop();
    let short = lent::read(bytes, &mut store.lend());
    assert_eq!(short, Err(Refusal::TABLE_SHORT));
    (number, place)
}

/// The sample with these bytes in the place of its own.
fn changed(whole: &[u8], changes: &[(usize, u8)]) -> Vec<u8> {
    let mut bytes = whole.to_vec();
    for &(at, value) in changes {
        bytes[at] = value;
    }
    bytes
}

/// Delta, two joins, `insert 0 1`, as the rules show it.
#[rustfmt::skip]
const EXAMPLE: [u8; 87] = [
    0x54, 0x4B, 0x42, 2, 0, 1, 2, 1, 0, 3, 0, 2, 0, 2, 0, 0, 0,
    0, 0, 0, 0, 0, 0, 0, 0,
    1, 0, 0, 0, 0, 0, 0, 0, 2, 0, 0, 0, 0, 0, 0, 0, 3, 0, 0, 0, 0, 0, 0, 0,
    0, 0, 2, 0, 0, 1, 0, 2, 0, 0,
    1, 0, 0, 0, 0, 0, 0, 0, 2, 0, 0, 0, 0, 0, 0, 0,
    3, 0, 0, 0, 0, 0, 0, 0, 2, 0, 0xFF, 0xFF,
];

/// The same in version 1.
fn example_1() -> Vec<u8> {
    let mut bytes = changed(&EXAMPLE, &[(3, 1)]);
    bytes.drain(17..25);
    bytes
}

#[test]
fn the_examples_of_the_rules() {
    let mut book = joined(Mode::Delta, 2);
    book.insert(set(&[0, 1]), ALL).unwrap();
    assert_eq!(bytes::write(book.book()), EXAMPLE);
    for (changes, expected) in [
        (&[(5, 2)][..], (22, 5)),
        (&[(7, 0)], (23, 9)),
        (&[(16, 1)], (24, 87)),
        (&[(3, 1)], (24, 87)),
        (&[(17, 4)], (31, 17)),
        (&[(17, 2)], (31, 75)),
        (&[(58, 2)], (31, 54)),
        (&[(58, 1)], (35, 41)),
        (&[(60, 1)], (31, 59)),
        (&[(59, 2)], (32, MISSING)),
        (&[(85, 0)], (31, 75)),
        (&[(85, 0), (86, 0)], (38, 75)),
    ] {
        assert_eq!(told(&changed(&EXAMPLE, changes)), expected, "{changes:?}");
    }
    let old = example_1();
    assert_eq!(old.len(), 79);
    assert_eq!(bytes::read(&old), Ok(book.clone()));
    assert_eq!(bytes::write_as(book.book(), Version::One), old);
    assert_eq!(told(&changed(&old, &[(50, 2)])), (31, 46));
    assert_eq!(told(&changed(&old, &[(3, 2)])), (24, 79));
}

#[test]
fn each_version_by_its_own_layout() {
    // The header is the same in both, and so is what is told of it.
    let old = example_1();
    for (change, number, place) in [
        ((0, 0), 20, 0),
        ((4, 1), 21, 3),
        ((5, 2), 22, 5),
        ((6, 65), 23, 6),
        ((16, 255), 23, 15),
    ] {
        for whole in [&old[..], &EXAMPLE] {
            assert_eq!(told(&changed(whole, &[change])), (number, place));
            assert_eq!(told(&changed(whole, &[change])[..17]), (number, place));
        }
    }
    // The length that one version has is wrong in the other.
    for (whole, other) in [(&old[..], 87), (&EXAMPLE, 79)] {
        let mut bytes = whole.to_vec();
        bytes.resize(other, 0);
        assert_eq!(told(&bytes), (24, other));
    }
    // Of the empty book too: 17 bytes and 25.
    let new = bytes::write(&Book::empty(Mode::Full));
    let old = bytes::write_as(&Book::empty(Mode::Full), Version::One);
    assert_eq!((old.len(), new.len()), (17, 25));
    assert_eq!(old[..3], new[..3]);
    assert_eq!(old[4..], new[4..17]);
    assert_eq!(bytes::read(&old), bytes::read(&new));
    assert_eq!(told(&changed(&old, &[(3, 2)])), (24, 17));
    assert_eq!(told(&changed(&new, &[(3, 1)])), (24, 25));
    // Sections start at 17 and at 25.
    for (whole, start) in [(&example_1()[..], 17), (&EXAMPLE, 25)] {
        let (mut cell, mut place) = (77, 77);
        let stretch = lent::section(whole, 0, &mut cell, &mut place);
        assert_eq!((cell, place), (0, 0));
        assert!(std::ptr::eq(stretch.as_ptr(), whole[start..].as_ptr()));
        let stretch = lent::section(whole, 4, &mut cell, &mut place);
        assert_eq!(stretch, &EXAMPLE[75..]);
    }
}

#[test]
fn the_set_of_leavers() {
    // Every user who has not joined, alone and with others: at byte 17.
    for user in 2..64 {
        let at = 17 + user / 8;
        let bit = 1 << (user % 8);
        assert_eq!(told(&changed(&EXAMPLE, &[(at, bit)])), (31, 17));
        let more = if at == 17 { bit | 3 } else { 3 };
        let bytes = changed(&EXAMPLE, &[(at, bit), (17, more)]);
        assert_eq!(told(&bytes), (31, 17));
    }
    // Somebody who has joined and is on the list: the folder's row.
    for leavers in [1, 2, 3] {
        assert_eq!(told(&changed(&EXAMPLE, &[(17, leavers)])), (31, 75));
    }
    // Off the list, locked with the outer vertex of who is left: a book.
    let left = changed(&EXAMPLE, &[(17, 2), (75, 1), (85, 0), (86, 0)]);
    assert_eq!(bytes::read(&left).unwrap().book().leavers, set(&[1]));
    // S1 by place: the set before every row, every row before the folder.
    let first = [(17, 4), (25, 9), (58, 2), (75, 7)];
    for (from, place) in [(0, 17), (1, 25), (2, 54), (3, 75)] {
        assert_eq!(told(&changed(&EXAMPLE, &first[from..])), (31, place));
    }
    // A list with a leaver breaks S1, so it comes before S2 to S8.
    for change in [(25, 2), (33, 1), (54, 2), (85, 0)] {
        let alone = told(&changed(&EXAMPLE, &[change]));
        assert!(alone.0 > 31 || alone.1 == 75, "{alone:?}");
        let both = changed(&EXAMPLE, &[change, (17, 1)]);
        assert_eq!(told(&both), (31, 75));
    }
}

#[test]
fn mark_version_and_mode() {
    for (at, mark) in [0x54, 0x4B, 0x42].into_iter().enumerate() {
        for value in [0, mark ^ 0x20, mark + 1, 255] {
            assert_eq!(told(&changed(&EXAMPLE, &[(at, value)])), (20, 0));
        }
    }
    for (low, high) in [
        (0, 0),
        (3, 0),
        (255, 0),
        (1, 1),
        (2, 1),
        (0, 1),
        (0, 2),
        (2, 255),
    ] {
        let bytes = changed(&EXAMPLE, &[(3, low), (4, high)]);
        assert_eq!(told(&bytes), (21, 3));
    }
    for mode in [2, 3, 128, 255] {
        assert_eq!(told(&changed(&EXAMPLE, &[(5, mode)])), (22, 5));
    }
    // The first of several.
    let all = [(2, 0), (4, 1), (5, 2), (6, 65), (58, 2)];
    for (first, expected) in [(0, (20, 0)), (1, (21, 3)), (2, (22, 5)), (3, (23, 6))] {
        let mut bytes = changed(&EXAMPLE, &all[first..]);
        assert_eq!(told(&bytes), expected);
        // The length does not come between.
        bytes.pop();
        assert_eq!(told(&bytes), expected);
        bytes.extend([0; 9]);
        assert_eq!(told(&bytes), expected);
    }
    let bytes = changed(&EXAMPLE, &all[4..]);
    assert_eq!(told(&bytes[..86]), (24, 86));
    assert_eq!(told(&bytes), (31, 54));
}

#[test]
fn short_strings() {
    // Fewer than 17 bytes are too few, whatever they are.
    let empty = bytes::write(&Book::empty(Mode::Delta));
    for length in 0..17 {
        for whole in [&empty[..], &EXAMPLE, &[0; 17], &[255; 17]] {
            assert_eq!(told(&whole[..length]), (24, length));
        }
    }
    // 17 to 24 are judged by what they say, and are too few.
    assert!(bytes::read(&empty).is_ok());
    for length in 17..25 {
        assert_eq!(told(&EXAMPLE[..length]), (24, length));
        assert_eq!(told(&empty[..length]), (24, length));
        assert_eq!(told(&[0; 25][..length]), (20, 0));
        assert_eq!(told(&changed(&empty, &[(3, 0)])[..length]), (21, 3));
        assert_eq!(told(&changed(&empty, &[(5, 7)])[..length]), (22, 5));
        assert_eq!(told(&changed(&empty, &[(9, 1)])[..length]), (23, 9));
    }
    // 25 are a book or not.
    assert_eq!(told(&EXAMPLE[..25]), (24, 25));
    assert_eq!(told(&changed(&empty, &[(9, 1)])), (23, 9));
    assert_eq!(told(&changed(&empty, &[(6, 1)])), (32, MISSING));
    assert_eq!(told(&changed(&empty, &[(6, 1), (9, 1)])), (24, 25));
    let mut longer = empty.clone();
    longer.push(0);
    assert_eq!(told(&longer), (24, 26));
}

/// The bytes with these counts: users, resources, inner vertices, inner
/// tokens, outer vertices, outer tokens.
fn with_counts(whole: &[u8], counts: [u16; 6]) -> Vec<u8> {
    let mut bytes = whole.to_vec();
    bytes[6] = counts[0] as u8;
    for (count, at) in counts[1..].iter().zip([7, 9, 11, 13, 15]) {
        bytes[at..at + 2].copy_from_slice(&count.to_le_bytes());
    }
    bytes
}

#[test]
fn counts_over_a_limit() {
    let places = [6, 7, 9, 11, 13, 15];
    let own = [2, 1, 3, 2, 2, 0];
    assert_eq!(with_counts(&EXAMPLE, own), EXAMPLE);
    // Each alone, one over its limit and far over it: inner vertices have
    // users + resources, outer vertices users + 448.
    for (count, one_over) in [65, 257, 4, 4097, 451, 4097].into_iter().enumerate() {
        for value in [one_over, one_over + 5, if count == 0 { 255 } else { 65535 }] {
            let mut counts = own;
            counts[count] = value;
            let bytes = with_counts(&EXAMPLE, counts);
            assert_eq!(told(&bytes), (23, places[count]));
        }
    }
    // At the limit a count is fine. Then the rows are missing, or the new
    // users' vertices in them; the inner vertices are at their limit already.
    for (count, limit, expected) in [
        (0, 64, (32, MISSING)),
        (1, 256, (24, 87)),
        (3, 4096, (24, 87)),
        (4, 450, (24, 87)),
        (5, 4096, (24, 87)),
    ] {
        let mut counts = own;
        counts[count] = limit;
        assert_eq!(told(&with_counts(&EXAMPLE, counts)), expected);
    }
    // The first of several: from each one on all are over their limit.
    let over = [65, 257, 65535, 4097, 65535, 4097];
    for first in 0..6 {
        let mut counts = own;
        counts[first..].copy_from_slice(&over[first..]);
        let bytes = with_counts(&EXAMPLE, counts);
        assert_eq!(told(&bytes), (23, places[first]));
    }
    // And two of them, the later one not next to it.
    for first in 0..6 {
        for later in first + 1..6 {
            let mut counts = own;
            (counts[first], counts[later]) = (over[first], over[later]);
            let bytes = with_counts(&EXAMPLE, counts);
            assert_eq!(told(&bytes), (23, places[first]));
        }
    }
}

#[test]
fn a_count_before_the_length() {
    // A byte more or less does not matter where a count is over its limit,
    // and neither does a length that agrees with it.
    let bytes = with_counts(&EXAMPLE, [2, 1, 3, 4097, 2, 0]);
    let mut agrees = bytes.clone();
    agrees.resize(87 + 4095 * 5, 0);
    for length in [17, 24, 25, 86, 87, 87 + 4095 * 5 - 1, 87 + 4095 * 5] {
        assert_eq!(told(&agrees[..length]), (23, 11));
    }
    // With one row less it is the length that is judged.
    let bytes = with_counts(&agrees, [2, 1, 3, 4096, 2, 0]);
    assert_eq!(told(&bytes), (24, 87 + 4095 * 5));
    assert_ne!(told(&bytes[..87 + 4094 * 5]).0, 24);
}

#[test]
fn lengths_as_they_are() {
    let mut bytes = EXAMPLE.to_vec();
    for length in [88, 46_617, 46_618, 65_534, 65_535, 65_536, 70_000, 200_000] {
        bytes.resize(length, 0);
        assert_eq!(told(&bytes), (24, length));
    }
    // A length of 65535 and a missing vertex are told apart by the number.
    assert_eq!(told(&changed(&EXAMPLE, &[(59, 2)])), (32, 65535));
}

/// P1 to P5: the rows start at 25, 33, 41, 49; 57, 62, 67; 72, 80, 88, 96, 104;
/// 112, 116, 120, 124; 128, 140, and there are 152 bytes.
fn base() -> Book {
    p5().into_book()
}

/// What is told of the base with a change. In version 1 it is the same, 8
/// bytes before.
fn after(change: impl FnOnce(&mut Book)) -> (u8, usize) {
    let mut book = base();
    change(&mut book);
    let (number, place) = told(&bytes::write(&book));
    if book.leavers.is_empty() {
        let old = if place == MISSING { place } else { place - 8 };
        let bytes = bytes::write_as(&book, Version::One);
        assert_eq!(told(&bytes), (number, old));
    }
    (number, place)
}

/// A change of a book.
type Edit = fn(&mut Book);

/// A change of a book, and where it breaks a rule.
type Change = (usize, Edit);

/// Each change alone is told with the number and its own place; any two
/// together with the lower place.
fn the_first_of(number: u8, changes: &[Change]) {
    for (place, change) in changes {
        assert_eq!(after(change), (number, *place));
        for (other, second) in changes {
            let both = after(|book| {
                change(book);
                second(book);
            });
            assert_eq!(both, (number, *place.min(other)));
        }
    }
}

#[test]
fn s1_is_one_rule() {
    // Kinds, numbers, sets and lists, whichever comes first in the bytes.
    the_first_of(
        31,
        &[
            (17, |b| b.leavers.0 |= 1 << 3),
            (17, |b| b.leavers.0 |= 1 << 63),
            (25, |b| b.inner_vertices[0].0 |= 1 << 63),
            (49, |b| b.inner_vertices[3].0 |= 1 << 3),
            (57, |b| b.inner_tokens[0].kind = 2),
            (57, |b| b.inner_tokens[0].to.0 = 65535),
            (62, |b| b.inner_tokens[1].from.0 = 4),
            (67, |b| b.inner_tokens[2].kind = 255),
            (80, |b| b.outer_vertices[1].0 |= 1 << 3),
            (104, |b| b.outer_vertices[4].0 = u64::MAX),
            (112, |b| b.outer_tokens[0].from.0 = 65535),
            (124, |b| b.outer_tokens[3].to.0 = 5),
            (128, |b| b.resources[0].list.0 |= 1 << 40),
            (128, |b| b.resources[0].inner.0 = 65535),
            (128, |b| b.leavers.0 |= 1 << 2),
            (140, |b| b.leavers.0 |= 1 << 1),
            (140, |b| b.resources[1].inner.0 = 4),
            (140, |b| b.resources[1].outer = Some(OuterVertex(65534))),
            (140, |b| b.resources[1].outer = Some(OuterVertex(5))),
        ],
    );
}

#[test]
fn s1_before_the_rules_in_earlier_bytes() {
    // A folder's row, the last of all, before an empty set, a missing vertex,
    // equal sets, a token that does not rise, and a group without tokens.
    let changes: [Edit; 5] = [
        |b| b.inner_vertices[3] = UserSet::EMPTY,
        |b| b.outer_vertices[0] = set(&[1, 2]),
        |b| b.outer_vertices[4] = set(&[0, 1]),
        |b| b.inner_tokens[0] = inner(3, 3, 0),
        |b| b.inner_vertices[3] = set(&[0, 1, 2]),
    ];
    for change in changes {
        let alone = after(change);
        assert!((32..=38).contains(&alone.0), "{alone:?}");
        let both = after(|b| {
            change(b);
            b.resources[1].inner.0 = 99;
        });
        assert_eq!(both, (31, 140));
    }
}

#[test]
fn s2_by_place() {
    the_first_of(
        32,
        &[
            (49, |b| b.inner_vertices[3] = UserSet::EMPTY),
            (57, |b| b.inner_tokens[0].to.0 = 1),
            (62, |b| b.inner_tokens[1].to.0 = 1),
            (67, |b| b.inner_tokens[2] = inner(3, 0, 0)),
            (112, |b| b.outer_tokens[0].to.0 = 0),
            (120, |b| b.outer_tokens[2].to.0 = 1),
            (124, |b| b.outer_tokens[3].to.0 = 2),
        ],
    );
    // A kind 1 token into an own vertex breaks nothing of S2, nor does an
    // empty outer set.
    assert_eq!(after(|b| b.inner_tokens[0] = inner(0, 1, 1)), (35, 49));
    assert_eq!(
        after(|b| b.outer_vertices[3] = UserSet::EMPTY),
        // The tokens into it start at larger sets.
        (34, 112)
    );
    // Of an own vertex that is there twice, either is one.
    let twice = after(|b| {
        b.outer_vertices.push(set(&[2]));
        b.outer_tokens.push(outer(0, 5));
    });
    assert_eq!(twice, (32, 25 + 32 + 15 + 48 + 4 * 4));
}

#[test]
fn a_missing_vertex_before_the_rest_of_s2() {
    let missing: [Edit; 4] = [
        // A user more than vertices, in both layers.
        |b| b.users = 4,
        |b| {
            b.users = 4;
            b.inner_vertices.push(set(&[3]));
        },
        |b| {
            b.users = 4;
            b.outer_vertices.push(set(&[3]));
        },
        // The last own vertex of the outer layer is another set.
        |b| b.outer_vertices[2] = set(&[0, 1, 2]),
    ];
    let other: [Edit; 4] = [
        |_| {},
        |b| b.inner_vertices[3] = UserSet::EMPTY,
        |b| b.inner_tokens[0].to.0 = 0,
        |b| b.outer_tokens[3].to.0 = 0,
    ];
    for missing in missing {
        for other in other {
            let both = after(|b| {
                other(b);
                missing(b);
            });
            assert_eq!(both, (32, MISSING));
        }
    }
    // Nobody is missing where nobody has joined.
    let mut book = Book::empty(Mode::Full);
    book.outer_vertices.push(UserSet::EMPTY);
    assert!(bytes::read(&bytes::write(&book)).is_ok());
    // S1 comes before.
    let both = after(|b| {
        b.users = 4;
        b.resources[1].list.0 |= 1 << 4;
    });
    assert_eq!(both, (31, 140));
}

#[test]
fn s3_the_later_of_equal_sets() {
    // With a fifth inner vertex and a sixth outer one.
    let grown = |change: Edit| {
        after(|b| {
            b.inner_vertices.push(set(&[0, 2]));
            b.inner_tokens.extend([inner(0, 4, 0), inner(2, 4, 0)]);
            b.outer_vertices.push(set(&[1, 2]));
            b.outer_tokens.extend([outer(1, 5), outer(2, 5)]);
            change(b);
        })
    };
    // Rows start at 25, 33, 41, 49, 57; tokens at 65; at 90, .., 130.
    assert_eq!(grown(|b| b.inner_vertices[4] = set(&[0, 1])), (33, 57));
    assert_eq!(grown(|b| b.inner_vertices[3] = set(&[0, 2])), (33, 57));
    assert_eq!(grown(|b| b.outer_vertices[5] = set(&[0, 1])), (33, 130));
    assert_eq!(grown(|b| b.outer_vertices[3] = set(&[1, 2])), (33, 130));
    assert_eq!(grown(|b| b.outer_vertices[4] = set(&[0, 1])), (33, 122));
    // Three equal: the second. Two pairs: the later row that comes first,
    // also where its pair lies inside the other.
    let three = grown(|b| {
        b.outer_vertices[4] = set(&[0, 1]);
        b.outer_vertices[5] = set(&[0, 1]);
    });
    assert_eq!(three, (33, 122));
    let inside = grown(|b| {
        b.outer_vertices.extend([set(&[1, 2]), set(&[0, 1])]);
    });
    assert_eq!(inside, (33, 138));
    let crossed = grown(|b| {
        b.outer_vertices.extend([set(&[0, 1]), set(&[1, 2])]);
    });
    assert_eq!(crossed, (33, 138));
    // An inner one before an outer one.
    let both = grown(|b| {
        b.inner_vertices[4] = set(&[0, 1]);
        b.outer_vertices[4] = set(&[0, 1]);
    });
    assert_eq!(both, (33, 57));
    // At a distance: an own vertex, the first row, again in the last.
    let far = after(|b| b.outer_vertices.push(set(&[0])));
    assert_eq!(far, (33, 25 + 32 + 15 + 5 * 8));
    // Two empty outer sets; the layers have their sets for themselves.
    let empty = after(|b| b.outer_vertices.extend([UserSet::EMPTY; 2]));
    assert_eq!(empty, (33, 25 + 32 + 15 + 6 * 8));
}

#[test]
fn s4_by_token() {
    the_first_of(
        34,
        &[
            (57, |b| b.inner_tokens[0] = inner(2, 3, 0)),
            (62, |b| b.inner_tokens[1] = inner(3, 3, 0)),
            (67, |b| b.inner_tokens[2].kind = 0),
            (112, |b| b.outer_tokens[0] = outer(4, 3)),
            (116, |b| b.outer_tokens[1] = outer(3, 3)),
            (124, |b| b.outer_tokens[3] = outer(1, 4)),
        ],
    );
    // From the empty outer set.
    let empty = after(|b| {
        b.outer_vertices.push(UserSet::EMPTY);
        b.outer_tokens[2] = outer(5, 4);
    });
    assert_eq!(empty, (34, 25 + 32 + 15 + 48 + 8));
    // A kind 1 token need not rise: S6 judges it.
    assert_eq!(after(|b| b.inner_tokens[2].from.0 = 3), (36, 67));
}

#[test]
fn s5_by_vertex() {
    the_first_of(
        35,
        &[
            // The token is in the row of another vertex or kind.
            (49, |b| b.inner_tokens[1] = inner(0, 3, 0)),
            (49, |b| b.inner_tokens[0].kind = 1),
            (96, |b| b.outer_tokens[1] = outer(0, 3)),
            (104, |b| b.outer_tokens[3] = outer(0, 4)),
        ],
    );
    // The lower of two groups.
    let grown = after(|b| {
        b.outer_vertices.push(set(&[1, 2]));
        b.outer_tokens.remove(3);
    });
    assert_eq!(grown, (35, 104));
    // A group of which too much leads to it is no S5 but an S4.
    assert_eq!(after(|b| b.outer_tokens[0] = outer(2, 3)), (34, 112));
    // An inner group before an outer one.
    let both = after(|b| {
        b.outer_tokens.remove(3);
        b.inner_vertices.push(set(&[1, 2]));
    });
    assert_eq!(both, (35, 57));
}

#[test]
fn s6_both_clauses_by_place() {
    // Six inner tokens and six outer ones; rows at 57, 62, .. and at 135, 139,
    // ..
    let grown = |change: Edit| {
        let mut book = base();
        let spare = [inner(1, 0, 1), inner(0, 1, 1), inner(2, 0, 1)];
        book.inner_tokens.extend(spare);
        book.outer_vertices.push(set(&[0, 1, 2]));
        book.outer_tokens.extend([outer(3, 5), outer(4, 5)]);
        assert!(bytes::read(&bytes::write(&book)).is_ok());
        change(&mut book);
        told(&bytes::write(&book))
    };
    let a: [Change; 3] = [
        (67, |b| b.inner_tokens[2].from.0 = 3),
        (72, |b| b.inner_tokens[3].to.0 = 3),
        (82, |b| b.inner_tokens[5] = inner(2, 2, 1)),
    ];
    let b: [Change; 4] = [
        (72, |b| b.inner_tokens[3] = b.inner_tokens[2]),
        (77, |b| b.inner_tokens[4] = b.inner_tokens[0]),
        (82, |b| b.inner_tokens[5] = b.inner_tokens[1]),
        (159, |b| b.outer_tokens.push(b.outer_tokens[0])),
    ];
    for (place, change) in a.iter().chain(&b) {
        assert_eq!(grown(*change), (36, *place));
    }
    // The lower of the two clauses, whichever it is.
    let both = grown(|b| {
        b.inner_tokens[4] = b.inner_tokens[0];
        b.inner_tokens[5] = inner(2, 2, 1);
    });
    assert_eq!(both, (36, 77));
    let both = grown(|b| {
        b.inner_tokens[3] = inner(2, 2, 1);
        b.inner_tokens[5] = b.inner_tokens[1];
    });
    assert_eq!(both, (36, 72));
    // A row that is equal to an earlier one and lets nobody in: that earlier
    // one is the first.
    let both = grown(|b| {
        b.inner_tokens[3] = inner(2, 2, 1);
        b.inner_tokens[5] = inner(2, 2, 1);
    });
    assert_eq!(both, (36, 72));
    // The later of equal rows, next to each other and not; of three the
    // second.
    assert_eq!(after(|b| b.inner_tokens.push(inner(0, 3, 0))), (36, 72));
    let three = after(|b| {
        b.outer_tokens.insert(1, outer(0, 3));
        b.outer_tokens.push(outer(0, 3));
    });
    assert_eq!(three, (36, 116));
    // An inner row before an outer one; equal ends of two kinds are two rows.
    let both = after(|b| {
        b.inner_tokens.push(inner(2, 3, 1));
        b.outer_tokens.push(outer(0, 3));
    });
    assert_eq!(both, (36, 72));
    assert_eq!(after(|b| b.inner_tokens.push(inner(0, 3, 1))), (36, 72));
}

#[test]
fn s7_and_s8_by_folder() {
    the_first_of(
        37,
        &[
            (128, |b| b.resources[0] = resource(&[0, 2], 2, Some(4))),
            (140, |b| b.resources[1] = resource(&[0, 1], 0, Some(3))),
        ],
    );
    the_first_of(
        38,
        &[
            (128, |b| b.resources[0].outer = None),
            (128, |b| b.resources[0].outer = Some(OuterVertex(3))),
            (140, |b| b.resources[1].outer = None),
            (140, |b| b.resources[1].outer = Some(OuterVertex(1))),
        ],
    );
    // All folders by S7 before any by S8.
    let both = after(|b| {
        b.resources[0].outer = None;
        b.resources[1].inner.0 = 0;
    });
    assert_eq!(both, (37, 140));
    // No outer vertex in mode full, and one too many in mode delta.
    let full = after(|b| {
        b.mode = 0;
        b.resources.push(resource(&[0], 0, None));
    });
    assert_eq!(full, (38, 152));
    let delta = after(|b| b.resources.push(resource(&[0], 0, Some(0))));
    assert_eq!(delta, (38, 152));
    // A list whose outer vertex is not there is the folder's, no missing one.
    let list = after(|b| b.resources[1].list = set(&[1, 2]));
    assert_eq!(list, (38, 140));
}

#[test]
fn the_rules_in_their_order() {
    // One change for each rule, none of which touches another: a higher place
    // of a lower rule comes first.
    let changes: [(u8, Edit); 8] = [
        (31, |b| b.resources[1].list.0 |= 1 << 9),
        (32, |b| b.outer_tokens.push(outer(1, 0))),
        (33, |b| b.outer_vertices.push(set(&[1]))),
        (34, |b| b.outer_tokens.push(outer(3, 3))),
        (35, |b| {
            b.outer_vertices.push(set(&[1, 2]));
            b.outer_tokens
                .push(outer(1, b.outer_vertices.len() as u16 - 1));
        }),
        (36, |b| b.inner_tokens.push(inner(2, 3, 1))),
        (37, |b| b.resources.push(resource(&[0, 1], 0, Some(3)))),
        (38, |b| b.resources.insert(0, resource(&[0], 0, Some(0)))),
    ];
    for (first, change) in &changes {
        for (second, other) in &changes {
            let both = after(|b| {
                change(b);
                // The same twice would be another fault.
                if first != second {
                    other(b);
                }
            });
            assert_eq!(both.0, *first.min(second));
        }
    }
}
