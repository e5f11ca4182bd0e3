//! Books whose counts are exactly those wished for, so that each limit can be
//! met, missed by one, and passed by one with nothing else wrong; and lists
//! that fill tables.

use std::collections::HashSet;

use fenstubble_reference::book::{
    Book, InnerToken, Mode, OuterToken, ResourceRow, KIND_DERIVATION, MAX_INNER_TOKENS,
    MAX_OUTER_GROUPS, MAX_OUTER_TOKENS, MAX_RESOURCES,
};
use fenstubble_reference::generate::Random;
use fenstubble_reference::numbers::{InnerVertex, OuterVertex, User};
use fenstubble_reference::sets::UserSet;

/// The counts of a book. Tokens are as many as the groups need, if that is
/// more.
#[derive(Clone, Copy, Debug, PartialEq, Eq)]
pub struct Counts {
    /// Users, at least one.
    pub users: u16,
    /// Resources.
    pub resources: usize,
    /// Inner vertices that are not a user's own.
    pub inner_groups: usize,
    /// Inner tokens, all of kind 0.
    pub inner_tokens: usize,
    /// Outer vertices that are not a user's own.
    pub outer_groups: usize,
    /// Outer tokens.
    pub outer_tokens: usize,
}

/// Groups in a fixed order: nested ones, then pairs.
fn groups(users: u16) -> impl Iterator<Item = UserSet> {
    let nested = (2..=users).map(UserSet::first);
    let pairs = (1..users)
        .flat_map(|high| (0..high).map(move |low| (low, high)))
        .filter(|&(_, high)| high > 1)
        .map(|(low, high)| UserSet::alone(User(low)).with(User(high)));
    nested.chain(pairs)
}

/// A layer's sets and tokens: each group is entered from the own vertices of
/// its users; spare tokens between any two sets fill up to the count.
fn layer(users: u16, count: usize, tokens: usize) -> (Vec<UserSet>, Vec<(usize, usize)>) {
    let mut sets: Vec<UserSet> = (0..users).map(|u| UserSet::alone(User(u))).collect();
    sets.extend(groups(users).take(count));
    let mut rows = Vec::new();
    for (to, set) in sets.iter().enumerate().skip(usize::from(users)) {
        rows.extend(set.users().map(|user| (user.index(), to)));
    }
    let there: HashSet<(usize, usize)> = rows.iter().copied().collect();
    'filled: for (from, small) in sets.iter().enumerate() {
        for (to, large) in sets.iter().enumerate() {
            if rows.len() >= tokens {
                break 'filled;
            }
            if small.strictly_within(*large) && !there.contains(&(from, to)) {
                rows.push((from, to));
            }
        }
    }
    (sets, rows)
}

/// A book with these counts, in which every resource is one user's alone. It
/// keeps every rule but for its counts.
pub fn book(mode: Mode, counts: &Counts) -> Book {
    let users = counts.users;
    let (inner_vertices, inner) = layer(users, counts.inner_groups, counts.inner_tokens);
    let (outer_vertices, outer) = layer(users, counts.outer_groups, counts.outer_tokens);
    let resources = (0..counts.resources).map(|place| {
        let user = User::at(place % usize::from(users));
        ResourceRow {
            list: UserSet::alone(user),
            inner: InnerVertex(user.0),
            outer: (mode == Mode::Full).then_some(OuterVertex(user.0)),
        }
    });
    Book {
        mode: mode.number(),
        users,
        leavers: UserSet::EMPTY,
        inner_tokens: inner_tokens(&inner),
        outer_tokens: outer_tokens(&outer),
        inner_vertices,
        outer_vertices,
        resources: resources.collect(),
    }
}

/// Kind 0 tokens between inner vertices.
pub fn inner_tokens(ends: &[(usize, usize)]) -> Vec<InnerToken> {
    let token = |&(from, to)| InnerToken {
        from: InnerVertex::at(from),
        to: InnerVertex::at(to),
        kind: KIND_DERIVATION,
    };
    ends.iter().map(token).collect()
}

/// Tokens between outer vertices.
pub fn outer_tokens(ends: &[(usize, usize)]) -> Vec<OuterToken> {
    let token = |&(from, to)| OuterToken {
        from: OuterVertex::at(from),
        to: OuterVertex::at(to),
    };
    ends.iter().map(token).collect()
}

/// Small counts, nothing near a limit.
pub const SMALL: Counts = Counts {
    users: 64,
    resources: 4,
    inner_groups: 3,
    inner_tokens: 0,
    outer_groups: 3,
    outer_tokens: 0,
};

/// Counts with one at its limit, one below it and one past it, for each
/// count; whether the book is within the limits.
pub fn around() -> Vec<(Counts, bool)> {
    let mut all = vec![(SMALL, true)];
    for (step, within) in [(0, true), (1, true), (2, false)] {
        let to = |limit: usize| limit - 1 + step;
        all.extend(
            [
                // The limit of the inner vertices is users plus resources.
                Counts {
                    users: 3,
                    resources: 3,
                    inner_groups: to(3),
                    ..SMALL
                },
                Counts {
                    resources: to(MAX_RESOURCES),
                    ..SMALL
                },
                Counts {
                    resources: MAX_RESOURCES,
                    inner_groups: to(MAX_RESOURCES),
                    ..SMALL
                },
                Counts {
                    resources: 120,
                    inner_groups: 120,
                    inner_tokens: to(MAX_INNER_TOKENS),
                    ..SMALL
                },
                Counts {
                    outer_groups: to(MAX_OUTER_GROUPS),
                    ..SMALL
                },
                // The same with few users: the limit counts groups, not rows.
                Counts {
                    users: 40,
                    outer_groups: to(MAX_OUTER_GROUPS),
                    ..SMALL
                },
                Counts {
                    outer_groups: 120,
                    outer_tokens: to(MAX_OUTER_TOKENS),
                    ..SMALL
                },
            ]
            .map(|counts| (counts, within)),
        );
    }
    // Everything at its limit at once: the largest book.
    all.push((LARGEST, true));
    all
}

/// Every count at its limit.
pub const LARGEST: Counts = Counts {
    users: 64,
    resources: MAX_RESOURCES,
    inner_groups: MAX_RESOURCES,
    inner_tokens: MAX_INNER_TOKENS,
    outer_groups: MAX_OUTER_GROUPS,
    outer_tokens: MAX_OUTER_TOKENS,
};

/// A random set of so many of 64 users.
pub fn of_size(random: &mut Random, size: u32) -> UserSet {
    let mut set = UserSet::EMPTY;
    while set.size() < size {
        set = set.with(User::at(random.below(64)));
    }
    set
}

#[cfg(test)]
mod tests {
    use super::*;
    use fenstubble_reference::bytes;
    use fenstubble_reference::sound::{sound, Rule};

    #[test]
    fn the_books_are_as_wished() {
        for mode in [Mode::Full, Mode::Delta] {
            for (counts, within) in around() {
                let book = book(mode, &counts);
                let expected = if within { Ok(()) } else { Err(Rule::S1) };
                assert_eq!(sound(&book), expected, "{counts:?}");
                assert_eq!(book.resources.len(), counts.resources);
                assert_eq!(
                    book.inner_vertices.len(),
                    usize::from(counts.users) + counts.inner_groups
                );
                assert_eq!(book.outer_groups(), counts.outer_groups);
                if counts.inner_tokens > 0 {
                    assert_eq!(book.inner_tokens.len(), counts.inner_tokens);
                }
                if counts.outer_tokens > 0 {
                    assert_eq!(book.outer_tokens.len(), counts.outer_tokens);
                }
            }
            assert_eq!(bytes::write(&book(mode, &LARGEST)).len(), bytes::LARGEST);
        }
    }
}
