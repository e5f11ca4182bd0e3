//! The published method's example (VLDB 2007, section 4.3): the access matrix
//! of figure 2, then the four changes, in both modes.
//!
//! Users A to E are 0 to 4; resources r1 to r8 are 0 to 7. The lists of
//! figure 2: r1, r2 {C}; r3, r4 {C,D}; r5, r6, r7 {A,B,C}; r8 {A,B,C,E}.
//! The paper numbers its groups in another order (b6 {A,B,C}, b7 {C,D});
//! here numbers follow creation, so {C,D} is 5, {A,B,C} 6, {A,B,C,E} 7.

mod common;

use common::script;

const JOINS: [(&str, &str); 5] = [
    ("join", "4 0 0; 1 0 0"),
    ("join", "4 1 0; 1 1 0"),
    ("join", "4 2 0; 1 2 0"),
    ("join", "4 3 0; 1 3 0"),
    ("join", "4 4 0; 1 4 0"),
];

#[test]
fn delta() {
    let mut steps = JOINS.to_vec();
    steps.extend([
        // r1, r2 for {C}: C's own vertex; the holders are the list: no lock.
        ("insert 2", "7 0 2"),
        ("insert 2", "7 1 2"),
        // r3 for {C,D}: own vertices of C and D, equal in size, 2 before 3.
        ("insert 2 3", "4 5 0; 5 2 5; 5 3 5; 7 2 5"),
        ("insert 2 3", "7 3 5"),
        // r5 for {A,B,C}: {C,D} is not inside it.
        ("insert 0 1 2", "4 6 0; 5 0 6; 5 1 6; 5 2 6; 7 4 6"),
        ("insert 0 1 2", "7 5 6"),
        ("insert 0 1 2", "7 6 6"),
        // r8 for {A,B,C,E}: 6 covers A, B, C; then E's own.
        ("insert 0 1 2 4", "4 7 0; 5 6 7; 5 4 7; 7 7 7"),
        // Before the changes: A opens r8 over 0 to 6 (row 2), 6 to 7 (row 5).
        ("open 0 7", "i 2; i 5"),
        // grant(r5, D): with a token for D to 6's access key the holders are
        // {A,B,C,D}; r6 and r7, still for {A,B,C}, are locked with the new
        // outer vertex 5. r5's list is the holders: nothing to unlock. Then
        // the token goes up.
        (
            "grant 4 3",
            "1 5 0; 2 0 5; 2 1 5; 2 2 5; 3 5 5; 3 6 5; 6 3 6",
        ),
        // revoke(r2, C): the empty list; a vertex without tokens.
        ("revoke 1 2", "1 6 0; 3 1 6"),
        // grant(r4, E): r3, for {C,D}, is locked with the new outer vertex 7,
        // into which the own vertices of C and D lead (the empty vertex 6 has
        // no user). r4 needs no lock. Then the token to 5's access key.
        ("grant 3 4", "1 7 0; 2 2 7; 2 3 7; 3 2 7; 6 4 5"),
        // grant(r6, D): D holds 6 already. r5's list is the holders; r7 is
        // locked for {A,B,C} already. r6's list is now the holders: unlocked.
        ("grant 5 3", "3 5 65535"),
        // What it comes to. Row 7 of the inner tokens is D's to 6 (rows: two
        // into 5, three into 6, two into 7).
        ("open 3 4", "i 7"),
        ("open 3 5", "i 7"),
        ("open 3 6", "no 11 1"),
        ("open 4 3", "i 8"),
        ("open 4 2", "no 11 1"),
        ("open 2 1", "no 11 1"),
        ("open 2 0", "ok"),
        // A to 6 is row 2; A to outer 5 is row 0.
        ("open 0 6", "i 2; o 0"),
        ("open 3 0", "no 11 2"),
        ("open 3 1", "no 11 3"),
    ]);
    script("delta", &steps);
}

#[test]
fn full() {
    let mut steps = JOINS.to_vec();
    steps.extend([
        // Every resource is locked for its list as well; the outer layer
        // grows along with the inner one and has the same numbers.
        ("insert 2", "3 0 2; 7 0 2"),
        ("insert 2", "3 1 2; 7 1 2"),
        (
            "insert 2 3",
            "4 5 0; 5 2 5; 5 3 5; 1 5 0; 2 2 5; 2 3 5; 3 2 5; 7 2 5",
        ),
        ("insert 2 3", "3 3 5; 7 3 5"),
        (
            "insert 0 1 2",
            "4 6 0; 5 0 6; 5 1 6; 5 2 6; 1 6 0; 2 0 6; 2 1 6; 2 2 6; 3 4 6; 7 4 6",
        ),
        ("insert 0 1 2", "3 5 6; 7 5 6"),
        ("insert 0 1 2", "3 6 6; 7 6 6"),
        (
            "insert 0 1 2 4",
            "4 7 0; 5 6 7; 5 4 7; 1 7 0; 2 6 7; 2 4 7; 3 7 7; 7 7 7",
        ),
        // grant(r5, D): r6 and r7 are locked for {A,B,C} already. r5 for
        // {A,B,C,D}: new outer vertex 8 from {A,B,C} (6), then {C,D} (5),
        // whose D is not yet covered. Then the token.
        ("grant 4 3", "1 8 0; 2 6 8; 2 5 8; 3 4 8; 6 3 6"),
        // revoke(r2, C): the empty outer vertex 9.
        ("revoke 1 2", "1 9 0; 3 1 9"),
        // grant(r4, E): r3 is locked for {C,D} already. r4 for {C,D,E}: new
        // outer vertex 10 from {C,D} (5) and E's own.
        ("grant 3 4", "1 10 0; 2 5 10; 2 4 10; 3 3 10; 6 4 5"),
        // grant(r6, D): nothing inner; r6 for {A,B,C,D}: outer vertex 8.
        ("grant 5 3", "3 5 8"),
        // D opens r5: inner row 7 is the kind 1 row; outer rows: 0 1 into 5,
        // 2 3 4 into 6, 5 6 into 7, 7 (6 to 8) and 8 (5 to 8). D is not in
        // {A,B,C}, so row 8 enters, and before it row 1 (3 to 5).
        ("open 3 4", "i 7; o 1; o 8"),
        // C is in both; the first row that enters is 7, from 6; into 6 the
        // row from C's own is 4. Inner: C to 6 is row 4.
        ("open 2 4", "i 4; o 4; o 7"),
        // E opens r4: the kind 1 row 8; outer: row 10 (4 to 10).
        ("open 4 3", "i 8; o 10"),
        ("open 3 6", "no 11 1"),
        ("open 4 2", "no 11 1"),
        ("open 2 1", "no 11 1"),
        ("open 3 0", "no 11 3"),
        ("open 3 7", "no 11 3"),
    ]);
    script("full", &steps);
}
