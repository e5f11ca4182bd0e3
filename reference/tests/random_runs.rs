//! Random runs that verify every step, and tables and bytes with any content.

use std::collections::BTreeSet;

use fenstubble_reference::book::{Head, SoundBook};
use fenstubble_reference::bytes::{self, Version};
use fenstubble_reference::check;
use fenstubble_reference::derive::{keys_of, outer_knowers, view, InnerKnowers};
use fenstubble_reference::generate::{self, Random, Shape};
use fenstubble_reference::lent::{self, Store};
use fenstubble_reference::numbers::{InnerVertex, Resource, User};
use fenstubble_reference::refusal::Refusal;
use fenstubble_reference::sets::UserSet;
use fenstubble_reference::sound::{broken_rules, sound, Rule};

#[test]
fn checked_runs() {
    for seed in [1, 20, 300] {
        match check::run(seed, 4000) {
            Ok(summary) => {
                assert_eq!(summary.steps, 4000);
                assert!(summary.accepted > 3000, "{summary}");
                assert!(summary.from_books > 0, "{summary}");
                assert!(summary.leaves.iter().all(|&some| some > 20), "{summary}");
                assert!(summary.answers[15] > 100, "{summary}");
            }
            Err(failure) => panic!("{failure}"),
        }
    }
}

/// Every call on these tables: none may panic, and all agree whether the book
/// is sound.
fn all_calls(random: &mut Random, head: &Head, store: &mut Store) {
    let untouched = store.clone();
    let broken = lent::broken_rule(head, &store.lend()).unwrap();
    let mut list = vec![1; 3 * 400];
    let mut buffer = vec![1; bytes::LARGEST];
    let mut answers = [1; 12];
    let (a, b) = (random.next() as u16 % 8, random.next() as u16 % 8);
    let set = random.next() & random.next() & 0xFF;
    let requests: [u64; 12] = std::array::from_fn(|i| match i % 3 {
        0 => random.next() % 7,
        _ => random.next() % 8,
    });
    let mut results: Vec<Option<u8>> = Vec::new();
    macro_rules! call {
        ($result:expr) => {
            results.push($result.err().map(|no| no.number));
            *store = untouched.clone();
        };
    }
    call!(lent::join(head, &mut store.lend(), &mut list));
    call!(lent::insert(head, &mut store.lend(), set, &mut list));
    call!(lent::grant(head, &mut store.lend(), a, b, &mut list));
    call!(lent::revoke(head, &mut store.lend(), a, b, &mut list));
    call!(lent::leave(head, &mut store.lend(), b, &mut list));
    call!(lent::view(head, &store.lend(), a, b));
    call!(lent::open(head, &store.lend(), a, b, &mut list));
    call!(lent::serve(
        head,
        &mut store.lend(),
        &requests,
        &mut answers,
        &mut list
    ));
    call!(lent::write(head, &store.lend(), &mut buffer));
    for result in &results {
        assert_eq!(
            *result == Some(12),
            broken.is_some(),
            "{broken:?}: {results:?}"
        );
    }
}

#[test]
fn any_tables() {
    let mut random = Random::new(41);
    let mut seen = [0; 9];
    for round in 0..3000 {
        let shape = if round % 100 == 0 {
            Shape::full(&mut random)
        } else {
            Shape::small(&mut random)
        };
        let book = generate::book(&mut random, &shape);
        let damaged = generate::damage(&mut random, &book);
        let mut head = damaged.head();
        if random.chance(1, 8) {
            let any = [
                0, 1, 63, 64, 65, 256, 257, 320, 448, 512, 4096, 4097, 32768, 65535,
            ];
            for count in [
                &mut head.mode,
                &mut head.users,
                &mut head.resources,
                &mut head.inner_vertices,
                &mut head.inner_tokens,
                &mut head.outer_vertices,
                &mut head.outer_tokens,
            ] {
                if random.chance(1, 3) {
                    *count = any[random.below(any.len())];
                }
            }
            if random.chance(1, 3) {
                head.leavers.0 = random.next() >> random.below(64);
            }
        }
        let mut store = Store::of(&damaged, random.next() as u8);
        all_calls(&mut random, &head, &mut store);

        let first = sound(&damaged).err();
        if damaged.mode < 256 && damaged.users < 256 {
            // The bytes are a book exactly where the tables are.
            let read = bytes::read(&bytes::write(&damaged));
            assert_eq!(read.is_ok(), first.is_none());
        }
        assert_eq!(broken_rules(&damaged).first().copied(), first);
        seen[first.map_or(8, |rule| rule as usize)] += 1;
        // Derivation is for any tables too.
        keys_of(&damaged, User(random.below(70) as u16));
        InnerKnowers::of(&damaged).holders(InnerVertex(random.next() as u16));
        outer_knowers(&damaged);
        view(&damaged, User(0), Resource(random.below(9) as u16));
        if let Ok(mut book) = SoundBook::new(damaged) {
            let request = generate::request(&mut random, book.book(), 64);
            let _ = book.answer(&request, usize::MAX);
            assert_eq!(sound(book.book()), Ok(()));
        }
    }
    for rule in Rule::ALL {
        assert!(seen[rule as usize] > 0, "no damage broke {rule:?} first");
    }
}

#[test]
fn garbage_tables() {
    let mut random = Random::new(42);
    let mut store = Store::filled(0);
    for round in 0..400 {
        let mask = [0xFF, 0x03, 0x01, 0x00][round % 4];
        for part in &mut store.parts {
            for byte in part.iter_mut() {
                *byte = random.next() as u8 & mask;
            }
        }
        let mut small = |most: usize| random.between(0, most) as u16;
        let head = if round % 8 == 0 {
            Head {
                mode: small(65535),
                users: small(65535),
                leavers: UserSet(round as u64),
                resources: small(65535),
                inner_vertices: small(65535),
                inner_tokens: small(65535),
                outer_vertices: small(65535),
                outer_tokens: small(65535),
            }
        } else {
            Head {
                mode: small(1),
                users: small(64),
                leavers: UserSet::first(round as u16 % 3),
                resources: small(256),
                inner_vertices: small(64),
                inner_tokens: small(4096),
                outer_vertices: small(448),
                outer_tokens: small(4096),
            }
        };
        all_calls(&mut random, &head, &mut store);
    }
}

#[test]
fn any_bytes() {
    let mut random = Random::new(43);
    let mut read = [0; 2];
    let mut seen = BTreeSet::new();
    for round in 0..4000 {
        let shape = if round % 200 == 0 {
            Shape::full(&mut random)
        } else {
            Shape::small(&mut random)
        };
        let book = generate::book(&mut random, &shape);
        let version = Version::ALL[round % 2];
        let written = bytes::write_as(&book, version);
        let damaged = generate::damage_bytes(&mut random, &written);
        let mut store = Store::filled(0x77);
        let untouched = store.clone();
        let result = lent::read(&damaged, &mut store.lend());
        let (mut cell, mut place) = (9, 9);
        let stretch = lent::section(&damaged, (round % 7) as u16, &mut cell, &mut place);
        match result {
            Ok(head) => {
                // Whatever is read is sound, and written again is the same, in
                // version 2.
                read[round % 2] += 1;
                assert_eq!(lent::broken_rule(&head, &store.lend()), Ok(None));
                let mut same = damaged.clone();
                if version == Version::One {
                    same[3] = 2;
                    same.splice(17..17, [0; 8]);
                }
                let mut buffer = vec![0; same.len()];
                let length = lent::write(&head, &store.lend(), &mut buffer);
                assert_eq!(length, Ok(same.len()));
                assert_eq!(buffer, same);
                assert_eq!((cell, place), (u16::from(round % 7 > 4), 0));
            }
            Err(no) => {
                let fault = bytes::read(&damaged).unwrap_err();
                assert_eq!(no, Refusal::from(fault));
                assert_eq!(store, untouched);
                assert_eq!((cell, Some(place)), (no.number.into(), no.place));
                assert!(stretch.is_empty());
                seen.insert(no.number);
            }
        }
    }
    assert!(read.iter().all(|&read| read > 0), "{read:?}");
    assert!(
        (20..=24).chain(31..=38).eq(seen),
        "not every number was met"
    );
    // Bytes that are no book at all.
    for _ in 0..2000 {
        let length = random.below(80);
        let mut any: Vec<u8> = (0..length).map(|_| random.next() as u8 & 3).collect();
        if random.chance(3, 4) {
            let version = random.between(1, 2) as u8;
            for (byte, mark) in any.iter_mut().zip([b'T', b'K', b'B', version, 0]) {
                *byte = mark;
            }
        }
        let read = bytes::read(&any).map(drop).map_err(Refusal::from);
        assert_eq!(bytes::section(&any, 0).map(drop), read);
        if let Err(no) = read {
            assert!(matches!(no.number, 20..=24 | 31..=38), "{no}");
        }
    }
}
