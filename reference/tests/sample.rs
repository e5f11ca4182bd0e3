//! The sample transcript (RULES 10.9), P1 to P12 and the numbers of RULES 11.2.

mod common;

use common::{joined, number, output, r, rows, script, set, u, ALL};
use fenstubble_reference::book::{Book, Mode, SoundBook};
use fenstubble_reference::bytes;
use fenstubble_reference::lent::{self, Store};
use fenstubble_reference::refusal::View;
use fenstubble_reference::requests::cover;
use fenstubble_reference::sets::UserSet;

#[test]
fn sample_transcript() {
    let input = "delta\njoin\njoin\ninsert 0 1\nopen 1 0\nrevoke 0 1\nopen 1 0";
    let expected = "\
ok 2
4 0 0
1 0 0
ok 2
4 1 0
1 1 0
ok 4
4 2 0
5 0 2
5 1 2
7 0 2
ok 1
i 1
ok 1
3 0 0
no 11 1
";
    assert_eq!(output(input), expected);
    assert_eq!(output(format!("{input}\n")), expected);
}

#[test]
fn p1_to_p8_one_delta_run() {
    let mut book = joined(Mode::Delta, 3);
    let list = set(&[0, 1]);
    // P1, P2
    let p1 = rows(book.insert(list, ALL));
    assert_eq!(p1, [[4, 3, 0], [5, 0, 3], [5, 1, 3], [7, 0, 3]]);
    assert_eq!(rows(book.insert(list, ALL)), [[7, 1, 3]]);
    // P3, P4
    let p3 = rows(book.grant(r(0), u(2), ALL));
    assert_eq!(p3, [[1, 3, 0], [2, 0, 3], [2, 1, 3], [3, 1, 3], [6, 2, 3]]);
    assert_eq!(book.view(u(2), r(1)), Ok(View::SelLocked));
    assert_eq!(View::SelLocked.number(), 1);
    // P5, P6
    let p5 = rows(book.revoke(r(0), u(1), ALL));
    assert_eq!(p5, [[1, 4, 0], [2, 0, 4], [2, 2, 4], [3, 0, 4]]);
    assert_eq!(rows(book.grant(r(0), u(1), ALL)), [[3, 0, 65535]]);
    // P7
    assert_eq!(rows(book.revoke(r(1), u(0), ALL)), [[3, 1, 1]]);
    assert_eq!(rows(book.revoke(r(1), u(1), ALL)), [[1, 5, 0], [3, 1, 5]]);
    // P8: 17 + 8 + 4*8 + 3*5 + 6*8 + 4*4 + 2*12. The kind 1 row is among the
    // three inner tokens, so there are 3 of them: 0 to 3, 1 to 3, 2 to 3.
    assert_eq!(bytes::write(book.book()).len(), 160);
}

#[test]
fn p9_p10_full() {
    script(
        "full",
        &[
            ("join", "4 0 0; 1 0 0"),
            ("join", "4 1 0; 1 1 0"),
            ("insert 0", "3 0 0; 7 0 0"),
            ("grant 0 1", "1 2 0; 2 0 2; 2 1 2; 3 0 2; 6 1 0"),
        ],
    );
}

#[test]
fn p11_cover_and_chain() {
    let sets = [set(&[0]), set(&[1]), set(&[2]), set(&[0, 1]), set(&[1, 2])];
    assert_eq!(cover(&sets, set(&[0, 1, 2])), [3, 4]);
    // The same in a book, and user 1's chain: rows 0 1 are into 3, 2 3 into
    // 4, 4 5 into 5; 1 to 3 is row 1, 3 to 5 is row 4.
    let mut book = joined(Mode::Delta, 3);
    book.insert(set(&[0, 1]), ALL).unwrap();
    book.insert(set(&[1, 2]), ALL).unwrap();
    let orders = rows(book.insert(set(&[0, 1, 2]), ALL));
    assert_eq!(orders, [[4, 5, 0], [5, 3, 5], [5, 4, 5], [7, 2, 5]]);
    let chains = book.open(u(1), r(2), ALL).unwrap();
    assert_eq!((chains.inner, chains.outer), (vec![1, 4], vec![]));
}

#[test]
fn p12_empty_delta_book() {
    let mut expected = vec![0x54, 0x4B, 0x42, 2, 0, 1];
    expected.extend([0; 19]);
    assert_eq!(bytes::write(&Book::empty(Mode::Delta)), expected);
    assert_eq!(bytes::read(&expected), Ok(SoundBook::empty(Mode::Delta)));
}

#[test]
fn largest_book() {
    let rows: usize = (0..5).map(|k| bytes::LIMITS[k] * bytes::WIDTHS[k]).sum();
    assert_eq!(bytes::HEAD_LENGTH + 8 + rows, 46_617);
    assert_eq!(bytes::LARGEST, 46_617);
}

#[test]
fn user_63_joins_and_the_65th_is_2() {
    for mode in [Mode::Delta, Mode::Full] {
        let mut book = joined(mode, 63);
        assert_eq!(rows(book.join(2)), [[4, 63, 0], [1, 63, 0]]);
        let before = book.clone();
        assert_eq!(number(book.join(2)), 2);
        assert_eq!(number(book.join(0)), 2, "2 comes before 10");
        assert_eq!(book, before);
        // User 63 is a user like any other.
        let orders = rows(book.insert(set(&[63]), ALL));
        assert_eq!(orders.last(), Some(&[7, 0, 63]));
    }
}

#[test]
fn resource_255_then_3() {
    for mode in [Mode::Delta, Mode::Full] {
        let mut book = joined(mode, 2);
        for _ in 0..255 {
            book.insert(set(&[0]), ALL).unwrap();
        }
        let orders = rows(book.insert(set(&[1]), ALL));
        assert_eq!(orders.last(), Some(&[7, 255, 1]));
        let before = book.clone();
        assert_eq!(number(book.insert(set(&[1]), ALL)), 3);
        // 1 and 4 stand above 3.
        assert_eq!(number(book.insert(set(&[2]), ALL)), 1);
        assert_eq!(number(book.insert(UserSet::EMPTY, ALL)), 4);
        assert_eq!(number(book.insert(set(&[1]), 0)), 3);
        assert_eq!(book, before);
        assert!(book.view(u(0), r(255)).is_ok());
        assert_eq!(number(book.view(u(0), r(256))), 1);
    }
}

#[test]
fn order_list_one_row_short_is_10() {
    // The run of P1 to P7; every request first one row short, in the book
    // and on lent tables.
    let steps: [(&str, u16, u16, usize); 9] = [
        ("join", 0, 0, 2),
        ("join", 0, 0, 2),
        ("join", 0, 0, 2),
        ("insert", 3, 0, 4),
        ("insert", 3, 0, 1),
        ("grant", 0, 2, 5),
        ("revoke", 0, 1, 4),
        ("grant", 0, 1, 1),
        ("revoke", 1, 0, 1),
    ];
    let mut book = SoundBook::empty(Mode::Delta);
    let mut store = Store::filled(0xEE);
    let mut head = book.book().head();
    for (word, a, b, count) in steps {
        let in_book = |book: &mut SoundBook, room: usize| match word {
            "join" => book.join(room),
            "insert" => book.insert(UserSet(u64::from(a)), room),
            "grant" => book.grant(r(a), u(b), room),
            _ => book.revoke(r(a), u(b), room),
        };
        let on_tables = |store: &mut Store, list: &mut [u16]| {
            let mut tables = store.lend();
            match word {
                "join" => lent::join(&head, &mut tables, list),
                "insert" => lent::insert(&head, &mut tables, u64::from(a), list),
                "grant" => lent::grant(&head, &mut tables, a, b, list),
                _ => lent::revoke(&head, &mut tables, a, b, list),
            }
        };
        let before = book.clone();
        assert_eq!(number(in_book(&mut book, count - 1)), 10);
        assert_eq!(book, before);
        let stored = store.clone();
        // Two numbers more do not make a row.
        let mut list = vec![7777; (count - 1) * 3 + 2];
        assert_eq!(number(on_tables(&mut store, &mut list)), 10);
        assert_eq!(store, stored);
        assert!(list.iter().all(|&n| n == 7777));

        let orders = rows(in_book(&mut book, count));
        assert_eq!(orders.len(), count);
        let mut list = vec![7777; count * 3];
        let (new_head, given) = on_tables(&mut store, &mut list).unwrap();
        assert_eq!((new_head, given), (book.book().head(), count));
        assert_eq!(list, orders.concat());
        assert_eq!(store, Store::of(book.book(), 0xEE));
        head = new_head;
    }
}

#[test]
fn b1_own_vertices_are_numbered_in_order_of_creation() {
    script(
        "delta",
        &[
            ("join", "4 0 0; 1 0 0"),
            ("insert 0", "7 0 0"),
            // The emptied list makes outer vertex 1.
            ("revoke 0 0", "1 1 0; 3 0 1"),
            // So user 1 has inner vertex 1 and outer vertex 2.
            ("join", "4 1 0; 1 2 0"),
            // A token from user 1's own vertices prints their numbers; the
            // empty vertex is never taken.
            ("insert 0 1", "4 2 0; 5 0 2; 5 1 2; 7 1 2"),
            ("join", "4 3 0; 1 3 0"),
            // User 2 has inner vertex 3: 6 3 2. No other resource has inner
            // vertex 2, and holders and list agree.
            ("grant 1 2", "6 3 2"),
            // {0,2}: outer vertices 0 and 3.
            ("revoke 1 1", "1 4 0; 2 0 4; 2 3 4; 3 1 4"),
            ("open 2 1", "i 2; o 1"),
            ("open 0 1", "i 0; o 0"),
            ("open 1 1", "no 11 1"),
            // Nobody knows the empty vertex's key; user 0 holds the inner one.
            ("open 0 0", "no 11 1"),
            ("open 1 0", "no 11 3"),
        ],
    );
}

#[test]
fn c1_the_cover_keeps_its_order() {
    // Users A to E are 0 to 4. {C,D} is 5, {A,B,C} is 6; {A,B,C,D} takes 6,
    // then 5, whose D is not yet covered, and not D's own vertex.
    script(
        "delta",
        &[
            ("join", "4 0 0; 1 0 0"),
            ("join", "4 1 0; 1 1 0"),
            ("join", "4 2 0; 1 2 0"),
            ("join", "4 3 0; 1 3 0"),
            ("join", "4 4 0; 1 4 0"),
            ("insert 2 3", "4 5 0; 5 2 5; 5 3 5; 7 0 5"),
            ("insert 0 1 2", "4 6 0; 5 0 6; 5 1 6; 5 2 6; 7 1 6"),
            ("insert 0 1 2 3", "4 7 0; 5 6 7; 5 5 7; 7 2 7"),
        ],
    );
}

#[test]
fn c5_insert_on_a_vertex_with_kind_1_tokens() {
    script(
        "delta",
        &[
            ("join", "4 0 0; 1 0 0"),
            ("join", "4 1 0; 1 1 0"),
            ("join", "4 2 0; 1 2 0"),
            ("insert 0 1", "4 3 0; 5 0 3; 5 1 3; 7 0 3"),
            ("insert 0 1", "7 1 3"),
            ("grant 0 2", "1 3 0; 2 0 3; 2 1 3; 3 1 3; 6 2 3"),
            // Holders {0,1,2}, list {0,1}: locked with outer vertex 3.
            ("insert 0 1", "3 2 3; 7 2 3"),
            ("open 0 2", "i 0; o 0"),
            ("open 2 2", "no 11 1"),
            // A list of all holders is another vertex: {0,1} and own 2.
            ("insert 0 1 2", "4 4 0; 5 3 4; 5 2 4; 7 3 4"),
        ],
    );
}

#[test]
fn b16_without_an_outer_key_the_outer_layer_is_known() {
    script(
        "delta",
        &[
            ("join", "4 0 0; 1 0 0"),
            ("join", "4 1 0; 1 1 0"),
            ("insert 0", "7 0 0"),
            ("open 1 0", "no 11 2"),
            ("open 0 0", "ok"),
        ],
    );
    script(
        "full",
        &[
            ("join", "4 0 0; 1 0 0"),
            ("join", "4 1 0; 1 1 0"),
            ("insert 0", "3 0 0; 7 0 0"),
            ("open 1 0", "no 11 3"),
            ("open 0 0", "ok"),
        ],
    );
}
