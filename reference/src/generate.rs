//! Random sound books, damaged books and requests, all from a small
//! deterministic generator.
//!
//! The books are mostly ones no run of requests reaches: own vertices in odd
//! places, groups nobody uses, spare tokens in any order, spare kind 1 rows,
//! tables filled to a limit or to one below it. In about half of them somebody
//! has left.

use std::collections::HashSet;

use crate::book::{
    Book, InnerToken, Mode, OuterToken, ResourceRow, KIND_ACCESS, KIND_DERIVATION,
    MAX_INNER_TOKENS, MAX_OUTER_GROUPS, MAX_OUTER_TOKENS, MAX_RESOURCES, MAX_USERS,
};
use crate::derive::InnerKnowers;
use crate::numbers::{InnerVertex, OuterVertex, Resource, User};
use crate::requests::{List, Request};
use crate::sets::UserSet;

/// The splitmix64 generator.
#[derive(Clone, Debug, PartialEq, Eq)]
pub struct Random(u64);

impl Random {
    /// A generator that starts at the seed.
    pub fn new(seed: u64) -> Random {
        Random(seed)
    }

    /// The next 64 bits.
    #[allow(clippy::should_implement_trait)]
    pub fn next(&mut self) -> u64 {
        self.0 = self.0.wrapping_add(0x9E37_79B9_7F4A_7C15);
        let mut z = self.0;
        z = (z ^ (z >> 30)).wrapping_mul(0xBF58_476D_1CE4_E5B9);
        z = (z ^ (z >> 27)).wrapping_mul(0x94D0_49BB_1331_11EB);
        z ^ (z >> 31)
    }

    /// A number below `end`; 0 if `end` is 0.
    pub fn below(&mut self, end: usize) -> usize {
        if end == 0 {
            return 0;
        }
        (self.next() % end as u64) as usize
    }

    /// A number from `first` to `last`, both among them.
    pub fn between(&mut self, first: usize, last: usize) -> usize {
        first + self.below(last.saturating_sub(first) + 1)
    }

    /// True in `one` of `of` cases.
    pub fn chance(&mut self, one: usize, of: usize) -> bool {
        self.below(of) < one
    }

    /// One of them, if there are any.
    pub fn pick<T: Copy>(&mut self, from: &[T]) -> Option<T> {
        if from.is_empty() {
            return None;
        }
        Some(from[self.below(from.len())])
    }

    /// Puts them in a random order.
    pub fn shuffle<T>(&mut self, all: &mut [T]) {
        for last in (1..all.len()).rev() {
            all.swap(last, self.below(last + 1));
        }
    }
}

/// What kind of book to make. The numbers are wishes: a book has fewer rows
/// where the rules or the limits leave no more.
#[derive(Clone, Debug, PartialEq, Eq)]
pub struct Shape {
    /// The mode.
    pub mode: Mode,
    /// Users.
    pub users: usize,
    /// Users who have left.
    pub leavers: usize,
    /// Resources.
    pub resources: usize,
    /// Inner group vertices, used or not.
    pub inner_groups: usize,
    /// Kind 1 tokens.
    pub access_tokens: usize,
    /// Outer group vertices in all.
    pub outer_groups: usize,
    /// Inner tokens to fill up to with spare ones.
    pub inner_tokens: usize,
    /// Outer tokens to fill up to with spare ones.
    pub outer_tokens: usize,
    /// Whether new sets are mostly made by adding one user to another set,
    /// which gives long chains.
    pub chains: bool,
}

impl Shape {
    /// A small, dense world: 3 to 6 users.
    pub fn small(random: &mut Random) -> Shape {
        let users = random.between(3, 6);
        let resources = random.between(1, 8);
        Shape {
            mode: random_mode(random),
            users,
            leavers: few_or_many(random, users / 2),
            resources,
            inner_groups: random.between(0, resources),
            access_tokens: random.between(0, 8),
            outer_groups: random.between(0, 10),
            inner_tokens: random.between(0, 24),
            outer_tokens: random.between(0, 24),
            chains: random.chance(1, 2),
        }
    }

    /// A world of any size up to the limits.
    pub fn wide(random: &mut Random) -> Shape {
        let users = random.between(0, MAX_USERS);
        let resources = random.between(0, MAX_RESOURCES);
        let most_groups = random.between(0, resources);
        Shape {
            mode: random_mode(random),
            users,
            leavers: few_or_many(random, users),
            resources,
            inner_groups: random.between(0, most_groups),
            access_tokens: random.between(0, 256),
            outer_groups: random.between(0, MAX_OUTER_GROUPS),
            inner_tokens: few_or_many(random, MAX_INNER_TOKENS),
            outer_tokens: few_or_many(random, MAX_OUTER_TOKENS),
            chains: random.chance(1, 2),
        }
    }

    /// A world at or just below the limits.
    pub fn full(random: &mut Random) -> Shape {
        let mut near = |most: usize, spread: usize| most - random.below(spread);
        let users = near(MAX_USERS, 2);
        let resources = near(MAX_RESOURCES, 3);
        let inner_groups = near(200, 100);
        let outer_groups = near(MAX_OUTER_GROUPS, 3);
        let inner_tokens = near(MAX_INNER_TOKENS, 4);
        let outer_tokens = near(MAX_OUTER_TOKENS, 4);
        Shape {
            mode: random_mode(random),
            users,
            leavers: few_or_many(random, 8),
            resources,
            inner_groups,
            access_tokens: random.between(0, 512),
            outer_groups,
            inner_tokens,
            outer_tokens,
            chains: random.chance(2, 3),
        }
    }

    /// Any of these.
    pub fn any(random: &mut Random) -> Shape {
        match random.below(8) {
            0 => Shape::full(random),
            1 | 2 => Shape::wide(random),
            _ => Shape::small(random),
        }
    }
}

/// None, or any number: with spare tokens chains do not stay long.
fn few_or_many(random: &mut Random, most: usize) -> usize {
    if random.chance(1, 2) {
        0
    } else {
        random.between(0, most)
    }
}

fn random_mode(random: &mut Random) -> Mode {
    if random.chance(1, 2) {
        Mode::Delta
    } else {
        Mode::Full
    }
}

/// A random set within `all`.
pub fn subset(random: &mut Random, all: UserSet) -> UserSet {
    let bits = match random.below(3) {
        0 => random.next() & random.next(),
        1 => random.next() | random.next(),
        _ => random.next(),
    };
    UserSet(bits).common(all)
}

/// A random user of the set.
pub fn member(random: &mut Random, set: UserSet) -> Option<User> {
    let place = random.below(set.size() as usize);
    set.users().nth(place)
}

/// One layer under construction: its sets, and its tokens as pairs of places.
struct Layer {
    sets: Vec<UserSet>,
    tokens: Vec<(usize, usize)>,
}

impl Layer {
    /// Builds a layer with every user's own vertex and as many of the wished
    /// groups as fit, in order of size; tokens cover each set, some more than
    /// needed.
    fn build(
        random: &mut Random,
        users: usize,
        mut wishes: Vec<UserSet>,
        most_groups: usize,
        most_tokens: usize,
    ) -> Layer {
        let mut layer = Layer {
            sets: (0..users).map(|u| UserSet::alone(User::at(u))).collect(),
            tokens: Vec::new(),
        };
        // Groups beyond the number are dropped at random, not by size.
        random.shuffle(&mut wishes);
        let mut seen: HashSet<UserSet> = layer.sets.iter().copied().collect();
        wishes.retain(|set| seen.insert(*set));
        wishes.truncate(most_groups);
        wishes.sort_by_key(|set| set.size());
        let largest_first = random.chance(1, 2);
        for set in wishes {
            let mut inside: Vec<usize> = (0..layer.sets.len())
                .filter(|&v| !layer.sets[v].is_empty() && layer.sets[v].strictly_within(set))
                .collect();
            random.shuffle(&mut inside);
            if largest_first {
                inside.sort_by_key(|&v| 64 - layer.sets[v].size());
            }
            let spare = random.chance(1, 3);
            let place = layer.sets.len();
            let before = layer.tokens.len();
            let mut uncovered = set;
            for v in inside {
                if !layer.sets[v].common(uncovered).is_empty() || (spare && random.chance(1, 4)) {
                    uncovered = uncovered.minus(layer.sets[v]);
                    layer.tokens.push((v, place));
                }
            }
            if layer.tokens.len() > most_tokens {
                layer.tokens.truncate(before);
            } else {
                layer.sets.push(set);
            }
        }
        layer
    }

    /// Adds spare tokens until there are so many, if there are so many.
    fn fill(&mut self, random: &mut Random, count: usize) {
        if self.tokens.len() >= count {
            return;
        }
        let there: HashSet<(usize, usize)> = self.tokens.iter().copied().collect();
        let mut possible = Vec::new();
        for (from, small) in self.sets.iter().enumerate() {
            for (to, large) in self.sets.iter().enumerate() {
                if !small.is_empty()
                    && small.strictly_within(*large)
                    && !there.contains(&(from, to))
                {
                    possible.push((from, to));
                }
            }
        }
        random.shuffle(&mut possible);
        possible.truncate(count - self.tokens.len());
        self.tokens.append(&mut possible);
    }

    /// Gives the vertices other numbers and the tokens other rows, or leaves
    /// them in order.
    fn stir(&mut self, random: &mut Random) {
        if random.chance(1, 4) {
            return;
        }
        let mut places: Vec<usize> = (0..self.sets.len()).collect();
        random.shuffle(&mut places);
        let mut sets = self.sets.clone();
        for (old, &new) in places.iter().enumerate() {
            sets[new] = self.sets[old];
        }
        self.sets = sets;
        for (from, to) in &mut self.tokens {
            *from = places[*from];
            *to = places[*to];
        }
        random.shuffle(&mut self.tokens);
    }
}

/// Sets to wish groups for.
fn wishes(random: &mut Random, all: UserSet, count: usize, chains: bool) -> Vec<UserSet> {
    let mut sets: Vec<UserSet> = Vec::new();
    for _ in 0..count * 2 {
        let last = sets.last().copied();
        let any = random.pick(&sets);
        let set = match if chains && random.chance(7, 8) {
            last
        } else {
            any
        } {
            Some(set) if chains && set != all && random.chance(15, 16) => {
                let missing = all.minus(set);
                member(random, missing).map_or(set, |user| set.with(user))
            }
            Some(set) if random.chance(1, 4) => set.union(random.pick(&sets).unwrap_or(set)),
            _ if chains => subset(random, all)
                .users()
                .take(random.between(2, 4))
                .collect(),
            _ => subset(random, all),
        };
        if set.size() >= 2 {
            sets.push(set);
        }
    }
    sets
}

/// A random sound book of that shape.
pub fn book(random: &mut Random, shape: &Shape) -> Book {
    let users = shape.users.min(MAX_USERS);
    let resources = shape.resources.min(MAX_RESOURCES);
    let all = UserSet::first(users as u16);
    let mut left = UserSet::EMPTY;
    for _ in 0..shape.leavers {
        left = member(random, all).map_or(left, |user| left.with(user));
    }

    // The inner layer, with kind 1 rows mixed in.
    let wished = wishes(random, all, shape.inner_groups, shape.chains);
    let mut inner = Layer::build(
        random,
        users,
        wished,
        shape.inner_groups.min(resources),
        MAX_INNER_TOKENS,
    );
    let most = shape.inner_tokens.min(MAX_INNER_TOKENS);
    inner.fill(random, most.saturating_sub(shape.access_tokens));
    inner.stir(random);
    let mut inner_tokens: Vec<InnerToken> = inner
        .tokens
        .iter()
        .map(|&(from, to)| InnerToken {
            from: InnerVertex::at(from),
            to: InnerVertex::at(to),
            kind: KIND_DERIVATION,
        })
        .collect();
    let room = MAX_INNER_TOKENS - inner_tokens.len();
    let mut access: HashSet<(usize, usize)> = HashSet::new();
    for _ in 0..shape.access_tokens {
        let (Some(user), to) = (member(random, all), random.below(inner.sets.len())) else {
            break;
        };
        let own = UserSet::alone(user);
        if access.len() < room && !inner.sets[to].names(user) {
            if let Some(from) = inner.sets.iter().position(|&set| set == own) {
                if access.insert((from, to)) {
                    inner_tokens.push(InnerToken {
                        from: InnerVertex::at(from),
                        to: InnerVertex::at(to),
                        kind: KIND_ACCESS,
                    });
                }
            }
        }
    }
    if random.chance(3, 4) {
        random.shuffle(&mut inner_tokens);
    }

    let mut book = Book {
        mode: shape.mode.number(),
        users: users as u16,
        leavers: left,
        inner_vertices: inner.sets,
        inner_tokens,
        outer_vertices: Vec::new(),
        outer_tokens: Vec::new(),
        resources: Vec::new(),
    };

    // The resources, with lists as wished.
    let knowers = InnerKnowers::of(&book);
    let popular = random.below(book.inner_vertices.len());
    for _ in 0..resources {
        if book.inner_vertices.is_empty() {
            break;
        }
        let vertex = if random.chance(1, 3) {
            popular
        } else {
            random.below(book.inner_vertices.len())
        };
        let inner = InnerVertex::at(vertex);
        let holders = knowers.holders(inner);
        let list = match random.below(8) {
            0 => UserSet::EMPTY,
            1..=3 => subset(random, holders),
            4 => book.inner_vertices[vertex],
            5 => member(random, holders).map_or(holders, |user| holders.without(user)),
            _ => holders,
        };
        book.resources.push(ResourceRow {
            list: list.minus(left),
            inner,
            outer: None,
        });
    }

    // The outer layer: the lists that need a key, and spare sets. It may
    // turn out too small for some lists.
    let needs_key =
        |row: &ResourceRow| shape.mode == Mode::Full || row.list != knowers.holders(row.inner);
    let mut wished: Vec<UserSet> = book
        .resources
        .iter()
        .filter(|row| needs_key(row))
        .map(|row| row.list)
        .collect();
    let spare = shape.outer_groups.saturating_sub(wished.len());
    wished.extend(wishes(random, all, spare, shape.chains));
    if random.chance(1, 3) {
        wished.push(UserSet::EMPTY);
    }
    // Where all holders have left there is no list but the empty one.
    let mut folders = book.resources.iter();
    let deserted = folders.any(|row| knowers.holders(row.inner).within(left));
    let most_groups = MAX_OUTER_GROUPS - usize::from(deserted);
    let mut outer = Layer::build(
        random,
        users,
        wished,
        shape.outer_groups.min(most_groups),
        MAX_OUTER_TOKENS,
    );
    if deserted && !outer.sets.contains(&UserSet::EMPTY) {
        outer.sets.push(UserSet::EMPTY);
    }
    outer.fill(random, shape.outer_tokens.min(MAX_OUTER_TOKENS));
    outer.stir(random);
    book.outer_tokens = outer
        .tokens
        .iter()
        .map(|&(from, to)| OuterToken {
            from: OuterVertex::at(from),
            to: OuterVertex::at(to),
        })
        .collect();
    book.outer_vertices = outer.sets;

    // Each resource's key; a list without one shrinks to one of its holders.
    for place in 0..book.resources.len() {
        let mut row = book.resources[place];
        let holders = knowers.holders(row.inner).minus(left);
        if random.chance(1, 3) {
            // A list that is deep in the outer layer, if one is found.
            let sets = (0..8).filter_map(|_| random.pick(&book.outer_vertices));
            let inside = sets.filter(|set| set.within(holders));
            row.list = inside.max_by_key(|set| set.size()).unwrap_or(row.list);
        }
        if needs_key(&row) && book.outer_vertex_of(row.list).is_none() {
            row.list = member(random, holders).map_or(UserSet::EMPTY, UserSet::alone);
        }
        row.outer = if needs_key(&row) {
            book.outer_vertex_of(row.list)
        } else {
            None
        };
        book.resources[place] = row;
    }
    book
}

/// The book with spare outer groups until there are so many, and then with
/// spare outer tokens until there are so many, as far as there are any. Each
/// new group names the user, so that it is in no cover of a set without them.
pub fn padded(random: &mut Random, book: &Book, user: User, groups: usize, tokens: usize) -> Book {
    let mut book = book.clone();
    let mut layer = Layer {
        sets: std::mem::take(&mut book.outer_vertices),
        tokens: Vec::new(),
    };
    for token in &book.outer_tokens {
        layer.tokens.push((token.from.index(), token.to.index()));
    }
    let own = |layer: &Layer, user: User| {
        let alone = UserSet::alone(user);
        layer.sets.iter().position(|&set| set == alone)
    };
    // Each from one that names the user, mostly the one before it, and from
    // another user's own vertex.
    let mut bases: Vec<usize> = own(&layer, user).into_iter().collect();
    let most = usize::from(book.users) + groups;
    for _ in 0..64 * groups {
        let last = bases.last().copied().filter(|_| random.chance(7, 8));
        let Some(base) = last.or_else(|| random.pick(&bases)) else {
            break;
        };
        let set = layer.sets[base];
        let Some(other) = member(random, book.joined().minus(set)) else {
            bases.push(bases[0]);
            continue;
        };
        let set = set.with(other);
        if layer.sets.len() >= most {
            break;
        }
        if let (Some(from), false) = (own(&layer, other), layer.sets.contains(&set)) {
            let place = layer.sets.len();
            layer.sets.push(set);
            layer.tokens.extend([(base, place), (from, place)]);
            bases.push(place);
        }
    }
    layer.fill(random, tokens);
    let (sets, tokens) = (layer.sets, layer.tokens);
    book.outer_vertices = sets;
    let token = |&(from, to): &(usize, usize)| OuterToken {
        from: OuterVertex::at(from),
        to: OuterVertex::at(to),
    };
    book.outer_tokens = tokens.iter().map(token).collect();
    book
}

/// A random request on the book: mostly one that is accepted, sometimes one
/// that is not; some are chosen for the locks that they need, some for those
/// who have left. Nobody joins while `most_users` are there and have not left.
pub fn request(random: &mut Random, book: &Book, most_users: usize) -> Request {
    if random.chance(1, 6) {
        if let Some(request) = locking_request(random, book) {
            return request;
        }
    }
    if random.chance(1, 8) {
        if let Some(request) = leaving_request(random, book) {
            return request;
        }
    }
    plain_request(random, book, most_users)
}

/// The same without those that are chosen for their locks or for leavers, and
/// without leaves.
pub fn plain_request(random: &mut Random, book: &Book, most_users: usize) -> Request {
    let users = usize::from(book.users);
    let staying = book.staying();
    let wanted = users < MAX_USERS && (staying.size() as usize) < most_users;
    if users == 0 || (wanted && (staying.is_empty() || random.chance(1, 12))) {
        return Request::Join;
    }
    if random.chance(1, 24) {
        return odd_request(random, book);
    }
    if book.resources.is_empty() || random.chance(1, 8) {
        return Request::Insert(List::from(some_list(random, book)));
    }
    let place = random.below(book.resources.len());
    let r = Resource::at(place);
    let list = book.resources[place].list;
    match random.below(10) {
        0..=3 => match member(random, staying.minus(list)) {
            Some(user) => Request::Grant(r, user),
            None => Request::Insert(List::from(some_list(random, book))),
        },
        4..=7 => match member(random, list) {
            Some(user) => Request::Revoke(r, user),
            None => Request::Grant(r, User::at(random.below(users))),
        },
        _ => {
            let anyone = User::at(random.below(users));
            let user = member(random, list).unwrap_or(anyone);
            Request::Open(if random.chance(1, 4) { anyone } else { user }, r)
        }
    }
}

/// A leave, seldom of the last one or of nobody, and of one of a few the
/// seldomer the fewer can still join; or a request about somebody who has left.
fn leaving_request(random: &mut Random, book: &Book) -> Option<Request> {
    let staying = book.staying();
    if random.chance(1, 3) {
        if random.chance(1, 16) {
            return Some(Request::Leave(User(book.users)));
        }
        let user = member(random, staying)?;
        let enough = match staying.size() {
            0 | 1 => random.chance(1, 4),
            2..=8 => random.chance(MAX_USERS - usize::from(book.users), MAX_USERS),
            _ => true,
        };
        return enough.then_some(Request::Leave(user));
    }
    let user = member(random, book.leavers)?;
    let r = Resource::at(random.below(book.resources.len()));
    Some(match random.below(7) {
        0 | 1 => Request::Grant(r, user),
        2 => Request::Insert(List::from(some_list(random, book).with(user))),
        3 => {
            // With a stranger too.
            let list = some_list(random, book).with(user);
            let stranger = User(book.users);
            Request::Insert(List {
                set: list.with(stranger),
                beyond: stranger.index() >= MAX_USERS || random.chance(1, 2),
            })
        }
        4 => Request::Revoke(r, user),
        5 => Request::Open(user, r),
        _ => Request::Leave(user),
    })
}

/// A request that mostly locks more than a change of one list asks for: an
/// insert where kind 1 tokens lead already, a second resource with an inner
/// vertex, or a grant of one of several to somebody who does not hold it.
fn locking_request(random: &mut Random, book: &Book) -> Option<Request> {
    let insert = |set| Request::Insert(List::from(set));
    let staying = book.staying();
    if random.chance(1, 4) {
        let mut tokens = book.inner_tokens.clone();
        tokens.retain(|token| {
            token.kind == KIND_ACCESS && book.inner_vertices[token.to.index()].within(staying)
        });
        let token = random.pick(&tokens)?;
        return Some(insert(book.inner_vertices[token.to.index()]));
    }
    // Where a leaver is a holder, no list is the holders.
    let knowers = InnerKnowers::of(book);
    let held = |place: usize| Some(knowers.holders(book.resources.get(place)?.inner));
    let mut places = (0..8).map(|_| random.below(book.resources.len()));
    let place = places.find(|&place| held(place).is_some_and(|set| set.within(staying)))?;
    let (inner, holders) = (book.resources[place].inner, held(place)?);
    let user = member(random, staying.minus(holders))?;
    let mut others = book.resources.iter().enumerate();
    if others.any(|(other, row)| other != place && row.inner == inner && row.list == holders) {
        Some(Request::Grant(Resource::at(place), user))
    } else {
        Some(insert(book.inner_vertices[inner.index()]))
    }
}

/// A list for an insert, without leavers: any set, or one that is there
/// already.
fn some_list(random: &mut Random, book: &Book) -> UserSet {
    let all = book.staying();
    let set = match random.below(4) {
        0 => random.pick(&book.inner_vertices).unwrap_or(all),
        1 => random.pick(&book.outer_vertices).unwrap_or(all),
        2 => subset(random, all).users().take(3).collect(),
        _ => subset(random, all),
    };
    let set = set.common(all);
    if set.is_empty() {
        member(random, all).map_or(all, UserSet::alone)
    } else {
        set
    }
}

/// A request with numbers that may not exist, or that asks for what is there
/// already.
fn odd_request(random: &mut Random, book: &Book) -> Request {
    let users = usize::from(book.users);
    let odd = |random: &mut Random, count: usize| match random.below(5) {
        0 => count,
        1 => count + 1,
        2 => 65535,
        _ => random.below(count),
    };
    let u = User::at(odd(random, users));
    let r = Resource::at(odd(random, book.resources.len()));
    match random.below(7) {
        0 if users == MAX_USERS => Request::Join,
        0 => Request::Grant(r, u),
        1 => Request::Revoke(r, u),
        2 | 3 => Request::Open(u, r),
        4 | 5 => Request::Insert(List {
            set: UserSet(random.next() >> random.below(64)),
            beyond: random.chance(1, 4),
        }),
        _ => Request::Insert(List::from(UserSet::EMPTY)),
    }
}

/// The book with one or a few small damages. It mostly is unsound, but need
/// not be.
pub fn damage(random: &mut Random, book: &Book) -> Book {
    let mut book = book.clone();
    for _ in 0..1 + random.below(3) / 2 {
        damage_once(random, &mut book);
    }
    book
}

fn damage_once(random: &mut Random, book: &mut Book) {
    let bit = UserSet(1 << random.below(64));
    let near = UserSet(1 << random.below(usize::from(book.users).clamp(1, 64)));
    let flip = if random.chance(3, 4) { near } else { bit };
    let some_number = |random: &mut Random, count: usize| match random.below(6) {
        0 => count as u16,
        1 => 65535,
        _ => random.below(count) as u16,
    };
    let inner = book.inner_vertices.len();
    let outer = book.outer_vertices.len();
    let inner_row = random.below(book.inner_tokens.len());
    let outer_row = random.below(book.outer_tokens.len());
    let resource = random.below(book.resources.len());
    let vertex = random.below(inner);
    let outer_vertex = random.below(outer);
    match random.below(21) {
        0 => book.mode = [0, 1, 2, 256, 65535][random.below(5)],
        1 => book.users = [0, 1, 63, 64, 65, 255, 65535][random.below(7)],
        2 => {
            if let Some(set) = book.inner_vertices.get_mut(vertex) {
                set.0 ^= flip.0;
            }
        }
        3 => {
            if let Some(set) = book.outer_vertices.get_mut(outer_vertex) {
                set.0 ^= flip.0;
            }
        }
        4 => {
            let copy = random.pick(&book.inner_vertices);
            if let (Some(set), Some(copy)) = (book.inner_vertices.get_mut(vertex), copy) {
                *set = copy;
            }
        }
        5 => {
            let copy = random.pick(&book.outer_vertices);
            if let (Some(set), Some(copy)) = (book.outer_vertices.get_mut(outer_vertex), copy) {
                *set = copy;
            }
        }
        6 => {
            if let Some(token) = book.inner_tokens.get_mut(inner_row) {
                token.from = InnerVertex(some_number(random, inner));
            }
        }
        7 => {
            if let Some(token) = book.inner_tokens.get_mut(inner_row) {
                token.to = InnerVertex(some_number(random, inner));
            }
        }
        8 => {
            if let Some(token) = book.inner_tokens.get_mut(inner_row) {
                token.kind = [0, 1, 1, 2, 255][random.below(5)];
            }
        }
        9 => {
            if let Some(token) = book.outer_tokens.get_mut(outer_row) {
                token.from = OuterVertex(some_number(random, outer));
            }
        }
        10 => {
            if let Some(token) = book.outer_tokens.get_mut(outer_row) {
                token.to = OuterVertex(some_number(random, outer));
            }
        }
        11 => {
            if let Some(token) = book.inner_tokens.get_mut(inner_row) {
                std::mem::swap(&mut token.from, &mut token.to);
            }
        }
        12 => {
            if let Some(&token) = book.inner_tokens.get(inner_row) {
                book.inner_tokens.push(token);
            }
        }
        13 => {
            if let Some(&token) = book.outer_tokens.get(outer_row) {
                book.outer_tokens.push(token);
            }
        }
        14 => {
            if inner_row < book.inner_tokens.len() {
                book.inner_tokens.remove(inner_row);
            }
        }
        15 => {
            if outer_row < book.outer_tokens.len() {
                book.outer_tokens.remove(outer_row);
            }
        }
        16 => {
            if let Some(row) = book.resources.get_mut(resource) {
                row.list.0 ^= flip.0;
            }
        }
        17 => {
            if let Some(row) = book.resources.get_mut(resource) {
                row.inner = InnerVertex(some_number(random, inner));
            }
        }
        18 => {
            if let Some(row) = book.resources.get_mut(resource) {
                let number = some_number(random, outer);
                row.outer = (number != 65535).then_some(OuterVertex(number));
            }
        }
        19 => book.leavers.0 ^= flip.0,
        _ => {
            let set = UserSet(random.next()).common(book.joined());
            if random.chance(1, 2) {
                book.inner_vertices.push(set);
            } else {
                book.outer_vertices.push(set);
            }
        }
    }
}

/// The bytes with a few of them changed, or some cut off or added.
pub fn damage_bytes(random: &mut Random, bytes: &[u8]) -> Vec<u8> {
    let mut bytes = bytes.to_vec();
    match random.below(8) {
        0 => bytes.truncate(random.below(bytes.len() + 1)),
        1 => bytes.extend((0..random.between(1, 16)).map(|i| i as u8)),
        2 => {
            // The header and the set of leavers alone.
            let at = random.below(bytes.len().min(25));
            if let Some(byte) = bytes.get_mut(at) {
                *byte = random.next() as u8;
            }
        }
        _ => {
            for _ in 0..random.between(1, 3) {
                let at = random.below(bytes.len());
                if let Some(byte) = bytes.get_mut(at) {
                    *byte ^= 1 << random.below(8);
                }
            }
        }
    }
    bytes
}

#[cfg(test)]
mod tests {
    use super::*;
    use crate::book::SoundBook;
    use crate::sound::sound;

    #[test]
    fn generated_books_are_sound() {
        let mut random = Random::new(7);
        let mut at_limit = [0; 3];
        let mut longest = [0; 2];
        for round in 0..400 {
            let shape = if round % 20 == 0 {
                Shape::full(&mut random)
            } else {
                Shape::any(&mut random)
            };
            let book = book(&mut random, &shape);
            assert_eq!(sound(&book), Ok(()), "round {round}, {shape:?}");
            at_limit[0] += usize::from(book.inner_tokens.len() == MAX_INNER_TOKENS);
            at_limit[1] += usize::from(book.outer_tokens.len() == MAX_OUTER_TOKENS);
            at_limit[2] += usize::from(book.outer_groups() == MAX_OUTER_GROUPS);
            let book = SoundBook::new(book).unwrap();
            for (place, row) in book.book().resources.iter().enumerate().step_by(8) {
                for user in row.list.users().take(8) {
                    let chains = book.open(user, Resource::at(place), usize::MAX).unwrap();
                    longest[0] = longest[0].max(chains.inner.len());
                    longest[1] = longest[1].max(chains.outer.len());
                }
            }
        }
        assert!(at_limit.iter().all(|&count| count > 0), "{at_limit:?}");
        assert!(longest.iter().all(|&count| count > 8), "{longest:?}");
    }
}
