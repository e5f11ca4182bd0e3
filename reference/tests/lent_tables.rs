//! The lent face: what it refuses, what it touches, and serving several
//! requests.

mod common;

use common::{number, p5, set};
use fenstubble_reference::book::{Head, SoundBook};
use fenstubble_reference::bytes::{self, Version, LIMITS, WIDTHS};
use fenstubble_reference::generate::{self, Random, Shape};
use fenstubble_reference::lent::{self, Store};
use fenstubble_reference::refusal::{Refusal, View};
use fenstubble_reference::requests::{Answer, Request};
use fenstubble_reference::sets::UserSet;

/// The refusal of every call that takes tables, with arguments that would
/// get other numbers as well; nothing may be touched.
fn every_call(head: &Head, store: &mut Store, bytes: &[u8]) -> Vec<u8> {
    let untouched = store.clone();
    let mut list = [5; 7];
    let mut buffer = [6; 9];
    let mut answers = [7; 2];
    let requests = [0; 9];
    let mut tables = store.lend();
    let numbers = vec![
        number(lent::join(head, &mut tables, &mut list)),
        number(lent::insert(head, &mut tables, 0, &mut list)),
        number(lent::grant(head, &mut tables, 999, 999, &mut list)),
        number(lent::revoke(head, &mut tables, 999, 999, &mut list)),
        number(lent::leave(head, &mut tables, 999, &mut list)),
        number(lent::view(head, &tables, 999, 999)),
        number(lent::open(head, &tables, 999, 999, &mut list)),
        number(lent::serve(
            head,
            &mut tables,
            &requests,
            &mut answers,
            &mut list,
        )),
        number(lent::write(head, &tables, &mut buffer)),
        number(lent::read(bytes, &mut tables)),
    ];
    assert_eq!(*store, untouched);
    assert_eq!((list, buffer, answers), ([5; 7], [6; 9], [7; 2]));
    numbers
}

#[test]
fn thirteen_before_all() {
    let book = p5();
    let head = book.book().head();
    let whole = Store::of(book.book(), 1);
    for k in 0..5 {
        // One byte short, and nothing at all; also on an unsound head.
        for length in [LIMITS[k] * WIDTHS[k] - 1, 0] {
            let mut store = whole.clone();
            store.parts[k].truncate(length);
            assert_eq!(every_call(&head, &mut store, b""), [13; 10]);
            let unsound = Head { mode: 9, ..head };
            assert_eq!(every_call(&unsound, &mut store, b""), [13; 10]);
            assert_eq!(
                lent::broken_rule(&head, &store.lend()),
                Err(Refusal::TABLE_SHORT)
            );
        }
    }
    // Longer is fine.
    let mut store = whole.clone();
    for part in &mut store.parts {
        part.extend([9; 7]);
    }
    assert_eq!(lent::view(&head, &store.lend(), 2, 1), Ok(View::SelLocked));
    assert!(store.parts.iter().all(|part| part.ends_with(&[9; 7])));
}

/// What [`every_call`] gets on tables without a sound book: 12, but for the
/// read of bytes that are too few.
const UNSOUND: [u8; 10] = [12, 12, 12, 12, 12, 12, 12, 12, 12, 24];

#[test]
fn twelve_before_the_rest() {
    let book = p5();
    let head = book.book().head();
    let mut store = Store::of(book.book(), 1);
    let heads = [
        Head { mode: 2, ..head },
        Head {
            mode: 65535,
            ..head
        },
        Head { users: 2, ..head },
        Head { users: 4, ..head },
        Head { users: 65, ..head },
        Head {
            users: 65535,
            ..head
        },
        Head {
            resources: 257,
            ..head
        },
        Head {
            resources: 65535,
            ..head
        },
        Head {
            resources: 3,
            ..head
        },
        Head {
            inner_vertices: 3,
            ..head
        },
        Head {
            inner_vertices: 6,
            ..head
        },
        Head {
            inner_vertices: 65535,
            ..head
        },
        Head {
            inner_tokens: 2,
            ..head
        },
        Head {
            inner_tokens: 4097,
            ..head
        },
        Head {
            inner_tokens: 65535,
            ..head
        },
        Head {
            outer_vertices: 4,
            ..head
        },
        Head {
            outer_vertices: 452,
            ..head
        },
        Head {
            outer_vertices: 65535,
            ..head
        },
        Head {
            outer_tokens: 3,
            ..head
        },
        Head {
            outer_tokens: 4097,
            ..head
        },
        Head {
            outer_tokens: 65535,
            ..head
        },
        // Leavers who are on a list, or have not joined.
        Head {
            leavers: set(&[0]),
            ..head
        },
        Head {
            leavers: set(&[2]),
            ..head
        },
        Head {
            leavers: set(&[3]),
            ..head
        },
        Head {
            leavers: set(&[63]),
            ..head
        },
        Head {
            mode: 65535,
            users: 65535,
            leavers: UserSet(u64::MAX),
            resources: 65535,
            inner_vertices: 65535,
            inner_tokens: 65535,
            outer_vertices: 65535,
            outer_tokens: 65535,
        },
    ];
    for bad in heads {
        assert_eq!(every_call(&bad, &mut store, b"TKB"), UNSOUND, "{bad:?}");
    }
    // A sound head over a damaged row.
    store.parts[4][8] = 2;
    assert_eq!(every_call(&head, &mut store, b"TKB"), UNSOUND);
}

#[test]
fn the_order_of_the_rest() {
    let book = p5();
    let head = book.book().head();
    let mut store = Store::of(book.book(), 1);
    let untouched = store.clone();
    let mut tables = store.lend();
    let none = &mut [];
    assert_eq!(number(lent::insert(&head, &mut tables, 1 << 3, none)), 1);
    assert_eq!(number(lent::insert(&head, &mut tables, 1 << 63, none)), 1);
    assert_eq!(number(lent::insert(&head, &mut tables, 0, none)), 4);
    assert_eq!(number(lent::insert(&head, &mut tables, 1, none)), 10);
    for u in [3, 63, 64, 65535] {
        assert_eq!(number(lent::leave(&head, &mut tables, u, none)), 1);
    }
    assert_eq!(number(lent::leave(&head, &mut tables, 0, none)), 10);
    for (a, b) in [(2, 0), (0, 3), (65535, 0), (0, 65535), (2, 3)] {
        assert_eq!(number(lent::grant(&head, &mut tables, a, b, none)), 1);
        assert_eq!(number(lent::revoke(&head, &mut tables, a, b, none)), 1);
        assert_eq!(number(lent::view(&head, &tables, b, a)), 1);
        assert_eq!(number(lent::open(&head, &tables, b, a, none)), 1);
    }
    assert_eq!(number(lent::grant(&head, &mut tables, 0, 0, none)), 5);
    assert_eq!(number(lent::revoke(&head, &mut tables, 0, 1, none)), 6);
    assert_eq!(number(lent::grant(&head, &mut tables, 0, 1, none)), 10);
    let closed = lent::open(&head, &tables, 1, 0, none).unwrap_err();
    assert_eq!((closed.number, closed.view_number()), (11, 1));
    assert_eq!(number(lent::open(&head, &tables, 0, 0, none)), 10);
    assert_eq!(number(lent::open(&head, &tables, 0, 0, &mut [3])), 10);
    let mut list = [3; 3];
    // 0 to 3 is inner row 0; 0 to outer 4 is row 2.
    assert_eq!(lent::open(&head, &tables, 0, 0, &mut list), Ok((1, 1)));
    assert_eq!(list, [0, 2, 3]);
    assert_eq!(lent::view(&head, &tables, 0, 0), Ok(View::Open));
    assert_eq!(store, untouched);
}

#[test]
fn read_write_and_sections() {
    let mut random = Random::new(11);
    for round in 0..60 {
        let shape = Shape::any(&mut random);
        let book = generate::book(&mut random, &shape);
        let written = bytes::write(&book);
        let head = book.head();

        // Reading touches the rows of the book alone, whatever was there.
        let mut store = Store::filled(0xC3);
        assert_eq!(lent::read(&written, &mut store.lend()), Ok(head));
        assert_eq!(store, Store::of(&book, 0xC3), "round {round}");
        let other = Store::of(&book, 0xC3);
        assert_eq!(lent::broken_rule(&head, &store.lend()), Ok(None));

        // Writing touches the length of the book alone.
        let mut short = vec![9; written.len() - 1];
        assert_eq!(number(lent::write(&head, &store.lend(), &mut short)), 10);
        assert!(short.iter().all(|&byte| byte == 9));
        let mut buffer = vec![9; written.len() + 3];
        assert_eq!(
            lent::write(&head, &store.lend(), &mut buffer),
            Ok(written.len())
        );
        assert_eq!(buffer[..written.len()], written);
        assert_eq!(buffer[written.len()..], [9; 3]);
        assert_eq!(store, other);

        // The sections are stretches of the bytes themselves.
        let counts = head.counts();
        let old = bytes::write_as(&book, Version::One);
        for (bytes, start) in [(&old, 17), (&written, 25)] {
            if start == 17 && !book.leavers.is_empty() {
                continue;
            }
            let mut start = start;
            for k in 0..5 {
                let (mut cell, mut place) = (77, 77);
                let stretch = lent::section(bytes, k as u16, &mut cell, &mut place);
                assert_eq!((cell, place), (0, 0));
                assert_eq!(stretch.len(), counts[k] * WIDTHS[k]);
                assert!(std::ptr::eq(stretch.as_ptr(), bytes[start..].as_ptr()));
                start += stretch.len();
            }
            // Of either version the tables get the same rows.
            let mut again = Store::filled(0xC3);
            assert_eq!(lent::read(bytes, &mut again.lend()), Ok(head));
            assert_eq!(again, other);
        }
        for k in [5, 6, 255, 256, 65535] {
            let (mut cell, mut place) = (77, 77);
            assert!(lent::section(&written, k, &mut cell, &mut place).is_empty());
            assert_eq!((cell, place), (1, 0));
        }

        // One byte more or less is no book.
        let mut longer = written.clone();
        longer.push(0);
        for bad in [&longer[..], &written[..written.len() - 1], &[]] {
            for k in [0, 4, 5, 65535] {
                let (mut cell, mut place) = (77, 77);
                assert!(lent::section(bad, k, &mut cell, &mut place).is_empty());
                assert_eq!((cell, place), (24, bad.len()));
            }
            let no = lent::read(bad, &mut store.lend()).unwrap_err();
            assert_eq!(no, Refusal::misread(24, bad.len()));
        }
        assert_eq!(store, other);
    }
}

#[test]
fn every_byte_of_the_head_counts() {
    let written = bytes::write(p5().book());
    assert!(bytes::read(&written).is_ok());
    for at in 0..25 {
        for value in 0..=255 {
            let mut bytes = written.clone();
            bytes[at] = value;
            // The one head that also fits: full instead of delta, since all
            // resources of this book are locked.
            let fits = bytes == written || (at == 5 && value == 0);
            assert_eq!(
                bytes::read(&bytes).is_ok(),
                fits,
                "byte {at}, value {value}"
            );
        }
    }
    // Counts past a limit with the length they ask for: no book either.
    for (at, width, count) in [(7, 12, 257u16), (11, 5, 4097), (15, 4, 4097)] {
        let mut bytes = written.clone();
        let old = u16::from_le_bytes([bytes[at], bytes[at + 1]]);
        bytes[at..at + 2].copy_from_slice(&count.to_le_bytes());
        bytes.extend(vec![0; usize::from(count - old) * width]);
        let fault = bytes::read(&bytes).unwrap_err();
        assert_eq!((fault.number(), fault.place()), (23, at));
    }
}

/// The row of a request, as `serve` takes it.
fn row_of(request: &Request) -> [u64; 3] {
    match *request {
        Request::Join => [0, 5, 6],
        Request::Insert(list) => [1, list.set.0, u64::from(list.beyond)],
        Request::Grant(r, u) => [2, u64::from(r.0), u64::from(u.0)],
        Request::Revoke(r, u) => [3, u64::from(r.0), u64::from(u.0)],
        Request::Leave(u) => [5, u64::from(u.0), 7],
        Request::Open(u, r) => [4, u64::from(u.0), u64::from(r.0)],
    }
}

#[test]
fn serve_the_sample() {
    let mut store = Store::filled(2);
    let head = Head {
        mode: 1,
        ..Head::default()
    };
    let requests = [0, 9, 9, 0, 9, 9, 1, 3, 0, 4, 1, 0, 3, 0, 1, 4, 1, 0, 8];
    let mut answers = [77; 20];
    let mut orders = [88; 3 * 10 + 5];
    let done = lent::serve(
        &head,
        &mut store.lend(),
        &requests,
        &mut answers,
        &mut orders,
    );
    let after = Head {
        mode: 1,
        users: 2,
        leavers: UserSet::EMPTY,
        resources: 1,
        inner_vertices: 3,
        inner_tokens: 2,
        outer_vertices: 2,
        outer_tokens: 0,
    };
    assert_eq!(done, Ok((after, 10)));
    let expected = [
        0, 0, 2, 0, 0, 2, 0, 0, 4, 0, 0, 1, 0, 0, 1, 11, 1, 0, 77, 77,
    ];
    assert_eq!(answers, expected);
    let expected = [
        [4, 0, 0],
        [1, 0, 0],
        [4, 1, 0],
        [1, 1, 0],
        [4, 2, 0],
        [5, 0, 2],
        [5, 1, 2],
        [7, 0, 2],
        [105, 1, 0],
        [3, 0, 0],
    ];
    assert_eq!(orders[..30], expected.concat());
    assert_eq!(orders[30..], [88; 5]);
}

#[test]
fn serve_odd_rows() {
    let book = p5();
    let head = book.book().head();
    let mut store = Store::of(book.book(), 4);
    let untouched = store.clone();
    let big = u64::from(u16::MAX) + 1;
    let requests = [
        [6, 0, 0],
        [5, 3, 0],
        [5, big, 0],
        [5, big + 2, u64::MAX],
        [5, 1 << 63, 0],
        [u64::MAX, 0, 0],
        [256, 0, 0],
        [2, big, 1],
        [2, 0, big + 1],
        [3, big, 0],
        [4, big, 0],
        [4, 0, big],
        [1, 1, 1],
        [1, 1, u64::MAX],
        [1, 8, 0],
        [1, 0, 0],
        // A list with someone above 63 and else empty: 1 before 4.
        [1, 0, 2],
        [2, 0, 0],
        [3, 0, 1],
        [4, 1, 0],
    ]
    .concat();
    let count = requests.len() / 3;
    let mut answers = vec![77; requests.len()];
    let mut orders = [88; 300];
    let done = lent::serve(
        &head,
        &mut store.lend(),
        &requests,
        &mut answers,
        &mut orders,
    );
    assert_eq!(done, Ok((head, 0)));
    let numbers = [1, 1, 1, 1, 1, 1, 1, 1, 1, 1, 1, 1, 1, 1, 1, 4, 1, 5, 6, 11];
    let expected: Vec<u16> = numbers
        .iter()
        .flat_map(|&number| [number, u16::from(number == 11), 0])
        .collect();
    assert_eq!(answers, expected);
    assert_eq!(orders, [88; 300]);
    assert_eq!(store, untouched);

    // One answer row less, two numbers over: 10 for the whole call.
    let mut answers = vec![77; (count - 1) * 3 + 2];
    let requests = [0; 3].repeat(count);
    let done = lent::serve(
        &head,
        &mut store.lend(),
        &requests,
        &mut answers,
        &mut orders,
    );
    assert_eq!(number(done), 10);
    assert!(answers.iter().all(|&n| n == 77));
    assert_eq!(store, untouched);

    // No request at all.
    let done = lent::serve(&head, &mut store.lend(), &[1, 2], &mut [], &mut []);
    assert_eq!(done, Ok((head, 0)));
}

#[test]
fn serve_a_leave() {
    // P5: folder 0 for {0,2}, folder 1 for {0,1}. 2 leaves: folder 0 for {0}.
    // Then nothing lists 2, and the third number never matters.
    let book = p5();
    let mut store = Store::of(book.book(), 4);
    let requests = [
        [5, 2, u64::MAX],
        [5, 2, 0],
        [2, 1, 2],
        [1, 4, 0],
        [1, 12, 0],
        [3, 0, 2],
        [4, 2, 0],
        [0, 0, 0],
        [5, 3, 5],
        [1, 8, 0],
    ]
    .concat();
    let mut answers = [77; 30];
    let mut orders = [88; 3 * 3 + 1];
    let done = lent::serve(
        &book.book().head(),
        &mut store.lend(),
        &requests,
        &mut answers,
        &mut orders,
    );
    let (head, used) = done.unwrap();
    assert_eq!((head.users, head.leavers, used), (4, set(&[2, 3]), 3));
    let expected = [
        [0, 0, 1],
        [15, 0, 0],
        [15, 0, 0],
        [15, 0, 0],
        [1, 0, 0],
        [6, 0, 0],
        [11, 1, 0],
        [0, 0, 2],
        [0, 0, 0],
        [15, 0, 0],
    ];
    assert_eq!(answers, expected.as_flattened());
    assert_eq!(orders, [3, 0, 0, 4, 4, 0, 1, 5, 0, 88]);
}

#[test]
fn the_head_in_numbers() {
    let head = Head {
        mode: 1,
        users: 64,
        leavers: set(&[0, 15, 17, 34, 63]),
        resources: 2,
        inner_vertices: 3,
        inner_tokens: 4,
        outer_vertices: 5,
        outer_tokens: 6,
    };
    let numbers = [1, 64, 2, 3, 4, 5, 6, 0x8001, 2, 4, 0x8000];
    assert_eq!(head.numbers(), numbers);
    assert_eq!(Head::from_numbers(&numbers), head);
}

#[test]
fn serve_on_the_rows_left() {
    let head = Head {
        mode: 1,
        ..Head::default()
    };
    let mut store = Store::filled(0);
    // 7 rows: three joins use 6; an insert of {0,1} needs 4 and gets 10, one
    // of {0} needs 1; an open without rows is still answered, a join is not.
    let requests = [
        [0, 0, 0],
        [0, 0, 0],
        [0, 0, 0],
        [1, 3, 0],
        [1, 1, 0],
        [4, 0, 0],
        [0, 0, 0],
        [4, 1, 0],
    ]
    .concat();
    let mut answers = [77; 24];
    let mut orders = [88; 3 * 7 + 2];
    let done = lent::serve(
        &head,
        &mut store.lend(),
        &requests,
        &mut answers,
        &mut orders,
    );
    assert_eq!(done.map(|done| done.1), Ok(7));
    let expected = [
        [0, 0, 2],
        [0, 0, 2],
        [0, 0, 2],
        [10, 0, 0],
        [0, 0, 1],
        [0, 0, 0],
        [10, 0, 0],
        [11, 2, 0],
    ];
    assert_eq!(answers, expected.as_flattened());
    assert_eq!(orders[18..21], [7, 0, 0]);
    assert_eq!(orders[21..], [88, 88]);
}

#[test]
fn serving_is_the_same_as_asking_one_by_one() {
    let mut random = Random::new(12);
    for round in 0..150 {
        let shape = if round % 30 == 0 {
            Shape::full(&mut random)
        } else {
            Shape::small(&mut random)
        };
        let start = generate::book(&mut random, &shape);
        let room = random.between(0, 80);
        let mut book = SoundBook::new(start.clone()).unwrap();
        let mut requests = Vec::new();
        let mut answers = Vec::new();
        let mut orders: Vec<u16> = Vec::new();
        for _ in 0..random.between(0, 30) {
            let request = generate::request(&mut random, book.book(), 64);
            requests.extend(row_of(&request));
            match book.answer(&request, room - orders.len() / 3) {
                Ok(answer) => {
                    answers.extend([0, 0, answer.count() as u16]);
                    match &answer {
                        Answer::Orders(given) => {
                            orders.extend(given.iter().flat_map(|order| order.row()));
                        }
                        Answer::Chains(chains) => {
                            orders.extend(chains.inner.iter().flat_map(|&row| [105, row, 0]));
                            orders.extend(chains.outer.iter().flat_map(|&row| [111, row, 0]));
                        }
                    }
                }
                Err(no) => answers.extend([u16::from(no.number), u16::from(no.view_number()), 0]),
            }
        }
        let mut store = Store::of(&start, 0x3C);
        let mut given_answers = vec![77; requests.len() + 4];
        let mut given_orders = vec![88; room * 3 + 2];
        let done = lent::serve(
            &start.head(),
            &mut store.lend(),
            &requests,
            &mut given_answers,
            &mut given_orders,
        );
        assert_eq!(
            done,
            Ok((book.book().head(), orders.len() / 3)),
            "round {round}"
        );
        assert_eq!(given_answers[..answers.len()], answers, "round {round}");
        assert_eq!(given_answers[answers.len()..], [77; 4]);
        assert_eq!(given_orders[..orders.len()], orders, "round {round}");
        assert!(given_orders[orders.len()..].iter().all(|&n| n == 88));
        assert_eq!(store, Store::of(book.book(), 0x3C), "round {round}");
    }
}
