//! The books that are measured: a typical one, the largest one, and ones in
//! which one count is doubled while the others stay.

use std::collections::HashSet;

use fenstubble_reference::book::{
    Book, Mode, ResourceRow, SoundBook, MAX_INNER_TOKENS, MAX_OUTER_GROUPS, MAX_OUTER_TOKENS,
    MAX_RESOURCES, MAX_USERS,
};
use fenstubble_reference::generate::{member, padded, Random};
use fenstubble_reference::numbers::{InnerVertex, OuterVertex, Resource, User};
use fenstubble_reference::requests::{cover, Request};
use fenstubble_reference::sets::UserSet;

use crate::limits::{inner_tokens, outer_tokens};

/// A book that requests have led to, and these requests.
#[derive(Clone, Debug)]
pub struct Run {
    /// The book.
    pub book: SoundBook,
    /// The accepted requests, from the empty book on.
    pub script: Vec<Request>,
}

impl Run {
    /// The empty delta book.
    fn new() -> Run {
        Run {
            book: SoundBook::empty(Mode::Delta),
            script: Vec::new(),
        }
    }

    /// Makes the request; whether it was accepted.
    fn ask(&mut self, request: Request) -> bool {
        let accepted = self.book.answer(&request, usize::MAX).is_ok();
        if accepted {
            self.script.push(request);
        }
        accepted
    }

    fn list(&self, r: usize) -> UserSet {
        self.book.book().resources[r].list
    }
}

/// 20 people, 60 folders of 25 teams, and a change a day for a year.
pub fn typical() -> Run {
    let random = &mut Random::new(20);
    let mut run = Run::new();
    for _ in 0..20 {
        run.ask(Request::Join);
    }
    let all = UserSet::first(20);
    let teams: Vec<UserSet> = (0..25)
        .map(|_| {
            let size = random.between(2, 8);
            some_users(random, all, size)
        })
        .collect();
    for _ in 0..60 {
        let team = random.pick(&teams).unwrap_or(all);
        run.ask(Request::Insert(team.into()));
    }
    let mut days = 0;
    while days < 365 {
        let r = random.below(60);
        let list = run.list(r);
        let grant = random.chance(1, 2);
        let who = if grant { all.minus(list) } else { list };
        let Some(user) = member(random, who) else {
            continue;
        };
        let r = Resource::at(r);
        days += usize::from(run.ask(if grant {
            Request::Grant(r, user)
        } else {
            Request::Revoke(r, user)
        }));
    }
    run
}

/// The counts of a large book.
#[derive(Clone, Copy, Debug, PartialEq, Eq)]
pub struct Size {
    /// Users.
    pub users: usize,
    /// Resources, each with an inner vertex of its own.
    pub resources: usize,
    /// Inner tokens, both kinds.
    pub inner_tokens: usize,
    /// Outer vertices that are not a user's own.
    pub outer_groups: usize,
    /// Outer tokens.
    pub outer_tokens: usize,
}

/// Every count at its limit.
pub const LARGEST: Size = Size {
    users: MAX_USERS,
    resources: MAX_RESOURCES,
    inner_tokens: MAX_INNER_TOKENS,
    outer_groups: MAX_OUTER_GROUPS,
    outer_tokens: MAX_OUTER_TOKENS,
};

/// Every count a little below its limit, so that each request is accepted.
pub const NEARLY: Size = Size {
    users: 63,
    resources: 250,
    inner_tokens: 4000,
    outer_groups: 440,
    outer_tokens: 4000,
};

/// A delta book with exactly these counts, by requests alone: everyone joins;
/// folders with lists of 8 to 14 people, no two alike; grants on the first of
/// them until the inner tokens are there; revokes on the others until the
/// outer groups and tokens are.
pub fn large(size: &Size) -> Run {
    let random = &mut Random::new(46_609);
    let mut run = Run::new();
    for _ in 0..size.users {
        run.ask(Request::Join);
    }
    let all = UserSet::first(size.users as u16);
    while run.book.book().resources.len() < size.resources {
        let people = random.between(8, 14);
        let list = some_users(random, all, people);
        if run.book.book().inner_vertex_of(list).is_none() {
            run.ask(Request::Insert(list.into()));
        }
    }
    let granted = 40;
    while run.book.book().inner_tokens.len() < size.inner_tokens {
        let r = random.below(granted);
        let missing = all.minus(run.list(r));
        if let Some(user) = member(random, missing) {
            run.ask(Request::Grant(Resource::at(r), user));
        }
    }
    while run.book.book().outer_groups() < size.outer_groups {
        let book = run.book.book();
        let groups = size.outer_groups - book.outer_groups();
        let tokens = size.outer_tokens - book.outer_tokens.len();
        let (r, user) = revoke_of(book, granted, tokens / groups, groups == 1);
        assert!(run.ask(Request::Revoke(r, user)), "a revoke that fits");
    }
    run
}

/// A revoke that makes an outer vertex with as near to so many tokens as
/// there is one; with exactly so many if it is the last.
fn revoke_of(book: &Book, granted: usize, tokens: usize, last: bool) -> (Resource, User) {
    let mut nearest = None;
    for (place, row) in book.resources.iter().enumerate().skip(granted) {
        for user in row.list.users() {
            let list = row.list.without(user);
            if list.size() < 2 || book.outer_vertex_of(list).is_some() {
                continue;
            }
            // Mostly the own vertices of the list; to be sure, by the rule.
            let far = (list.size() as usize).abs_diff(tokens);
            if nearest.is_some_and(|(least, _)| far >= least) {
                continue;
            }
            if !last || cover(&book.outer_vertices, list).len() == tokens {
                nearest = Some((far, (Resource::at(place), user)));
            }
        }
    }
    nearest.expect("enough folders to revoke from").1
}

/// 64 people and lists of the first two, three and so on: the first opens the
/// last folder by 63 rows in each layer, the most there can be.
pub fn chained() -> SoundBook {
    let mut book = SoundBook::empty(Mode::Full);
    let joins = (0..64).map(|_| Request::Join);
    let lists = (2..=64).map(|count| Request::Insert(UserSet::first(count).into()));
    for request in joins.chain(lists) {
        let _ = book.answer(&request, usize::MAX);
    }
    book
}

/// The one who leaves in [`listed`], [`filled_listed`] and [`most_listed`].
pub const LEAVER: User = User(63);

/// 64 people and 256 folders, by requests alone: each list names the last
/// person and 15 others, no two alike, so that the inner tokens are at their
/// limit. When that person leaves, each folder gets an outer vertex of its own,
/// with 15 tokens.
pub fn listed() -> Run {
    listed_with(15)
}

/// The same with 14 others, and with spare outer vertices: the leave makes as
/// many as there may be.
pub fn filled_listed() -> Book {
    let book = listed_with(14).book.into_book();
    let spare = MAX_OUTER_GROUPS - MAX_RESOURCES;
    padded(&mut Random::new(448), &book, LEAVER, spare, 0)
}

/// Lists of the last person and so many others.
fn listed_with(count: usize) -> Run {
    let random = &mut Random::new(4_352);
    let mut run = Run::new();
    for _ in 0..MAX_USERS {
        run.ask(Request::Join);
    }
    let others = UserSet::first(LEAVER.0);
    while run.book.book().resources.len() < MAX_RESOURCES {
        let list = some_users(random, others, count).with(LEAVER);
        if run.book.book().inner_vertex_of(list).is_none() {
            run.ask(Request::Insert(list.into()));
        }
    }
    run
}

/// The same with the most orders that a leave can give, 4,608, in a book that
/// no requests lead to: lists of 24 others, and then lists of 8 of these. The
/// inner vertex of the larger list has a token from that of the smaller one,
/// but the outer vertex for the larger list is made first.
pub fn most_listed() -> Book {
    let random = &mut Random::new(4_608);
    let others = UserSet::first(LEAVER.0);
    let mut lists: Vec<UserSet> = Vec::new();
    while lists.len() < MAX_RESOURCES / 2 {
        let list = some_users(random, others, 24);
        if !lists.contains(&list) {
            lists.push(list);
        }
    }
    for at in 0..MAX_RESOURCES / 2 {
        loop {
            let list = some_users(random, lists[at], 8);
            if !lists.contains(&list) {
                lists.push(list);
                break;
            }
        }
    }
    let all = UserSet::first(MAX_USERS as u16);
    let own: Vec<UserSet> = all.users().map(UserSet::alone).collect();
    let mut inner_vertices = own.clone();
    let mut inner = Vec::new();
    for (at, list) in lists.iter().enumerate() {
        let to = MAX_USERS + at;
        inner_vertices.push(list.with(LEAVER));
        let smaller = lists.get(at + MAX_RESOURCES / 2);
        let rest = match smaller {
            Some(smaller) => {
                inner.push((to + MAX_RESOURCES / 2, to));
                list.minus(*smaller)
            }
            None => list.with(LEAVER),
        };
        inner.extend(rest.users().map(|user| (user.index(), to)));
    }
    let resources = lists.iter().enumerate().map(|(at, list)| ResourceRow {
        list: list.with(LEAVER),
        inner: InnerVertex::at(MAX_USERS + at),
        outer: None,
    });
    Book {
        mode: Mode::Delta.number(),
        users: MAX_USERS as u16,
        leavers: UserSet::EMPTY,
        resources: resources.collect(),
        inner_tokens: inner_tokens(&inner),
        outer_tokens: Vec::new(),
        inner_vertices,
        outer_vertices: own,
    }
}

/// So many random users of a set.
fn some_users(random: &mut Random, all: UserSet, count: usize) -> UserSet {
    let mut set = UserSet::EMPTY;
    while (set.size() as usize) < count.min(all.size() as usize) {
        set = set.with(member(random, all).unwrap_or(User(0)));
    }
    set
}

/// The same book with the token rows of both layers in a random order.
pub fn shuffled(book: &Book) -> Book {
    let random = &mut Random::new(7);
    let mut book = book.clone();
    random.shuffle(&mut book.inner_tokens);
    random.shuffle(&mut book.outer_tokens);
    book
}

/// A layer of 64 users with so many groups and tokens: each group but the
/// smallest is the one before and one user more, so that two tokens suffice
/// for it; spare tokens come from any set inside another. The rows are in a
/// random order.
fn layer(groups: usize, tokens: usize) -> (Vec<UserSet>, Vec<(usize, usize)>) {
    let mut sets: Vec<UserSet> = (0..64).map(|u| UserSet::alone(User(u))).collect();
    let mut rows = Vec::new();
    for group in 0..groups {
        // Chains of 32 sets, each from another user on.
        let (chain, step) = ((group / 32 * 4) as u16, (group % 32) as u16);
        let next = User((chain + step + 1) % 64);
        let before = if step == 0 {
            usize::from(chain)
        } else {
            sets.len() - 1
        };
        rows.push((before, sets.len()));
        rows.push((next.index(), sets.len()));
        sets.push(sets[before].with(next));
    }
    let there: HashSet<(usize, usize)> = rows.iter().copied().collect();
    let mut spare: Vec<(usize, usize)> = (0..sets.len())
        .flat_map(|from| (64..sets.len()).map(move |to| (from, to)))
        .filter(|&(from, to)| sets[from].strictly_within(sets[to]))
        .filter(|row| !there.contains(row))
        .collect();
    let random = &mut Random::new(groups as u64);
    random.shuffle(&mut spare);
    rows.extend(spare.into_iter().take(tokens.saturating_sub(rows.len())));
    random.shuffle(&mut rows);
    (sets, rows)
}

/// A delta book with 256 resources and so many groups and tokens in each
/// layer: every other resource is locked for one of its users alone.
pub fn grown(inner_groups: usize, outer_groups: usize, tokens: usize) -> Book {
    let (inner_vertices, inner) = layer(inner_groups, tokens);
    let (outer_vertices, outer) = layer(outer_groups, tokens);
    let resources = (0..MAX_RESOURCES).map(|place| {
        let inner = InnerVertex::at(64 + place % inner_groups);
        let set = inner_vertices[inner.index()];
        let alone = set.users().next().filter(|_| place % 2 == 1);
        ResourceRow {
            list: alone.map_or(set, UserSet::alone),
            inner,
            outer: alone.map(|user| OuterVertex(user.0)),
        }
    });
    Book {
        mode: Mode::Delta.number(),
        users: 64,
        leavers: UserSet::EMPTY,
        resources: resources.collect(),
        inner_tokens: inner_tokens(&inner),
        outer_tokens: outer_tokens(&outer),
        inner_vertices,
        outer_vertices,
    }
}

#[cfg(test)]
mod tests {
    use super::*;
    use fenstubble_reference::bytes;
    use fenstubble_reference::sound::sound;

    #[test]
    fn the_largest_book_by_requests() {
        let run = large(&LARGEST);
        let book = run.book.book();
        assert_eq!(book.head().counts(), [320, 4096, 512, 4096, 256]);
        assert_eq!(bytes::write(book).len(), bytes::LARGEST);
        assert_eq!(sound(book), Ok(()));
        // From the empty book by its script alone.
        let mut again = SoundBook::empty(Mode::Delta);
        for request in &run.script {
            again.answer(request, usize::MAX).unwrap();
        }
        assert_eq!(again, run.book);
        assert_eq!(sound(&shuffled(book)), Ok(()));
    }

    #[test]
    fn the_longest_chains() {
        let mut book = chained();
        let open = Request::Open(User(0), Resource(62));
        let answer = book.answer(&open, usize::MAX).unwrap();
        assert_eq!(answer.count(), 2 * 63);
    }

    #[test]
    fn the_books_of_leaves() {
        let mut book = listed().book;
        assert_eq!(book.book().head().counts(), [320, 4096, 64, 0, 256]);
        assert_eq!(book.leave(LEAVER, usize::MAX).unwrap().len(), 256 * 17);
        assert_eq!(book.book().head().counts(), [320, 4096, 320, 3840, 256]);
        let book = filled_listed();
        assert_eq!(book.outer_groups(), 192);
        let mut book = SoundBook::new(book).unwrap();
        assert_eq!(book.leave(LEAVER, usize::MAX).unwrap().len(), 256 * 16);
        assert_eq!(book.book().head().counts(), [320, 3840, 512, 3968, 256]);
        let book = most_listed();
        assert_eq!(sound(&book), Ok(()));
        let mut book = SoundBook::new(book).unwrap();
        assert_eq!(book.leave(LEAVER, usize::MAX).unwrap().len(), 4608);
        assert_eq!(book.book().outer_groups(), 256);
        assert_eq!(book.book().outer_tokens.len(), 4096);
    }

    #[test]
    fn the_other_books() {
        let nearly = large(&NEARLY);
        let book = nearly.book.book();
        assert_eq!(book.head().counts(), [313, 4000, 503, 4000, 250]);
        let book = typical().book.into_book();
        assert_eq!((book.users, book.resources.len()), (20, 60));
        for (inner, outer, tokens) in [(64, 64, 1024), (256, 448, 1024), (64, 64, 2048)] {
            let book = grown(inner, outer, tokens);
            assert_eq!(sound(&book), Ok(()));
            let counts = [64 + inner, tokens, 64 + outer, tokens, 256];
            assert_eq!(book.head().counts(), counts);
        }
    }
}
