//! How the orders of a request stand (RULES 6.2): a new vertex, its tokens,
//! what it is for; an insert's 7 and a grant's 6 last. All rows are worked out
//! by hand.

mod common;

use common::script;

/// Three users, with the same numbers for their vertices in both layers.
const JOINS: [(&str, &str); 3] = [
    ("join", "4 0 0; 1 0 0"),
    ("join", "4 1 0; 1 1 0"),
    ("join", "4 2 0; 1 2 0"),
];

fn after_joins(mode: &str, steps: &[(&str, &str)]) {
    script(mode, &[&JOINS, steps].concat());
}

#[test]
fn a_grant_locks_a_neighbour_and_its_folder() {
    // The second example of RULES 5.8.
    after_joins(
        "delta",
        &[
            ("insert 0 1", "4 3 0; 5 0 3; 5 1 3; 7 0 3"),
            ("insert 0 1", "7 1 3"),
            // 1 still holds 3: folder 0 is locked with 0's own outer vertex.
            ("revoke 0 1", "3 0 0"),
            (
                "grant 0 2",
                "1 3 0; 2 0 3; 2 1 3; 3 1 3; 1 4 0; 2 0 4; 2 2 4; 3 0 4; 6 2 3",
            ),
            // The outer rows are 0 and 1 into 3, 2 and 3 into 4; of the inner
            // ones the token is row 2.
            ("open 0 0", "i 0; o 2"),
            ("open 2 0", "i 2; o 3"),
            ("open 1 1", "i 1; o 1"),
            ("open 1 0", "no 11 1"),
            ("open 2 1", "no 11 1"),
        ],
    );
}

#[test]
fn every_part_of_a_grant() {
    // Neighbours 0 and 2 share a new vertex, and 3 has another list: it was
    // locked for that by the revoke. Then folder 1 with a new vertex of its
    // own, then the token.
    after_joins(
        "delta",
        &[
            ("insert 0 1", "4 3 0; 5 0 3; 5 1 3; 7 0 3"),
            ("insert 0 1", "7 1 3"),
            ("insert 0 1", "7 2 3"),
            ("insert 0 1", "7 3 3"),
            ("revoke 1 0", "3 1 1"),
            ("revoke 3 1", "3 3 0"),
            (
                "grant 1 2",
                "1 3 0; 2 0 3; 2 1 3; 3 0 3; 3 2 3; 1 4 0; 2 1 4; 2 2 4; 3 1 4; 6 2 3",
            ),
            // A holder is granted without a token: 2 holds 3 by now, and 0 and
            // 2 are locked already. {0,1,2} are the holders.
            ("grant 0 2", "3 0 65535"),
            // {0,2} for folder 3, where 1 holds 3 as well.
            ("grant 3 2", "1 5 0; 2 0 5; 2 2 5; 3 3 5"),
        ],
    );
}

#[test]
fn a_grant_with_vertices_that_are_there() {
    // {0,1} and {0,2} have outer vertices already, for folders 0 and 1.
    after_joins(
        "delta",
        &[
            ("insert 0 1 2", "4 3 0; 5 0 3; 5 1 3; 5 2 3; 7 0 3"),
            ("revoke 0 2", "1 3 0; 2 0 3; 2 1 3; 3 0 3"),
            ("insert 0 1 2", "7 1 3"),
            ("revoke 1 1", "1 4 0; 2 0 4; 2 2 4; 3 1 4"),
            // {0,1} inside {0,1,2}, from the own vertices.
            ("insert 0 1", "4 4 0; 5 0 4; 5 1 4; 7 2 4"),
            ("insert 0 1", "7 3 4"),
            ("revoke 2 1", "3 2 0"),
            // The neighbour 3 for {0,1}, folder 2 for {0,2}, then the token.
            ("grant 2 2", "3 3 3; 3 2 4; 6 2 4"),
        ],
    );
}

#[test]
fn an_insert_that_locks_for_its_list_in_delta() {
    after_joins(
        "delta",
        &[
            ("insert 0 1", "4 3 0; 5 0 3; 5 1 3; 7 0 3"),
            // No neighbours, and the holders are the list.
            ("grant 0 2", "6 2 3"),
            // 2 holds 3 by the token: a new outer vertex for {0,1}, the lock,
            // and then the folder.
            ("insert 0 1", "1 3 0; 2 0 3; 2 1 3; 3 1 3; 7 1 3"),
            ("open 2 1", "no 11 1"),
            ("open 1 1", "i 1; o 1"),
            // The vertex is there now.
            ("insert 0 1", "3 2 3; 7 2 3"),
        ],
    );
    // The same for a list of one: both vertices are the user's own.
    after_joins(
        "delta",
        &[
            ("insert 0", "7 0 0"),
            ("grant 0 1", "6 1 0"),
            ("insert 0", "3 1 0; 7 1 0"),
        ],
    );
}

#[test]
fn every_part_of_an_insert() {
    // Full: a new vertex in both layers.
    after_joins(
        "full",
        &[
            (
                "insert 0 2",
                "4 3 0; 5 0 3; 5 2 3; 1 3 0; 2 0 3; 2 2 3; 3 0 3; 7 0 3",
            ),
            ("insert 2 0", "3 1 3; 7 1 3"),
            // {0,2} before own vertex 1, in both.
            (
                "insert 0 1 2",
                "4 4 0; 5 3 4; 5 1 4; 1 4 0; 2 3 4; 2 1 4; 3 2 4; 7 2 4",
            ),
            // Folder 0 for {2}, whose outer vertex is 2's own, then for nobody.
            ("revoke 0 0", "3 0 2"),
            ("revoke 0 2", "1 5 0; 3 0 5"),
            // Granted to 1, who is no holder: 1's own outer vertex, the token.
            ("grant 0 1", "3 0 1; 6 1 3"),
        ],
    );
}
