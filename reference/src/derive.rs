//! Derivation: what users get by really following tokens and hashing.
//!
//! It is done in two separate ways. [`keys_of`] follows the tokens for one
//! user and says which keys the user has; [`InnerKnowers`] and
//! [`outer_knowers`] follow them for all users at once and say of each key
//! who has it. None looks at a stored set, except to find where a user
//! starts: the vertex whose set is that user alone. Tokens whose ends do not
//! exist lead nowhere.

use crate::book::{Book, ResourceRow, KIND_ACCESS, KIND_DERIVATION};
use crate::numbers::{InnerVertex, OuterVertex, Resource, User};
use crate::refusal::View;
use crate::sets::UserSet;

/// A key of the book.
#[derive(Clone, Copy, Debug, PartialEq, Eq, Hash)]
pub enum Key {
    /// The derivation key of an inner vertex.
    InnerDerivation(InnerVertex),
    /// The access key of an inner vertex: the hash of the derivation key.
    InnerAccess(InnerVertex),
    /// The key of an outer vertex.
    Outer(OuterVertex),
}

/// A set of keys.
#[derive(Clone, Debug, PartialEq, Eq)]
pub struct KeySet {
    inner_derivation: Vec<bool>,
    inner_access: Vec<bool>,
    outer: Vec<bool>,
}

impl KeySet {
    /// No key of that book.
    pub fn none(book: &Book) -> KeySet {
        KeySet {
            inner_derivation: vec![false; book.inner_vertices.len()],
            inner_access: vec![false; book.inner_vertices.len()],
            outer: vec![false; book.outer_vertices.len()],
        }
    }

    /// Whether the key is among them.
    pub fn has(&self, key: Key) -> bool {
        let (keys, place) = match key {
            Key::InnerDerivation(v) => (&self.inner_derivation, v.index()),
            Key::InnerAccess(v) => (&self.inner_access, v.index()),
            Key::Outer(v) => (&self.outer, v.index()),
        };
        keys.get(place).copied().unwrap_or(false)
    }

    /// Adds a key; whether it was new. A key that does not exist is not added.
    pub fn add(&mut self, key: Key) -> bool {
        let (keys, place) = match key {
            Key::InnerDerivation(v) => (&mut self.inner_derivation, v.index()),
            Key::InnerAccess(v) => (&mut self.inner_access, v.index()),
            Key::Outer(v) => (&mut self.outer, v.index()),
        };
        match keys.get_mut(place) {
            Some(known) => !std::mem::replace(known, true),
            None => false,
        }
    }

    /// What of the resource these keys show.
    pub fn view(&self, row: &ResourceRow) -> View {
        let inner = self.has(Key::InnerAccess(row.inner));
        let outer = row.outer.is_none_or(|v| self.has(Key::Outer(v)));
        View::of(inner, outer)
    }
}

/// All keys the user derives from their two starting keys.
pub fn keys_of(book: &Book, user: User) -> KeySet {
    let mut keys = KeySet::none(book);
    if let Some(own) = book.own_inner_vertex(user) {
        keys.add(Key::InnerDerivation(own));
    }
    if let Some(own) = book.own_outer_vertex(user) {
        keys.add(Key::Outer(own));
    }
    follow(book, &mut keys);
    keys
}

/// Adds all that tokens and hashing give from these keys.
pub fn follow(book: &Book, keys: &mut KeySet) {
    let mut more = true;
    while more {
        more = false;
        for token in &book.inner_tokens {
            if token.kind == KIND_DERIVATION && keys.has(Key::InnerDerivation(token.from)) {
                more |= keys.add(Key::InnerDerivation(token.to));
            }
        }
        for token in &book.outer_tokens {
            if keys.has(Key::Outer(token.from)) {
                more |= keys.add(Key::Outer(token.to));
            }
        }
    }
    // Nothing starts at an access key, so those can come last.
    for place in 0..book.inner_vertices.len() {
        let vertex = InnerVertex::at(place);
        if keys.has(Key::InnerDerivation(vertex)) {
            keys.add(Key::InnerAccess(vertex));
        }
    }
    for token in &book.inner_tokens {
        if token.kind == KIND_ACCESS && keys.has(Key::InnerDerivation(token.from)) {
            keys.add(Key::InnerAccess(token.to));
        }
    }
}

/// For each inner key, who derives it. Followed for all users at once, each
/// user a bit.
#[derive(Clone, Debug, PartialEq, Eq)]
pub struct InnerKnowers {
    /// Who derives the derivation key of each inner vertex.
    pub derivation: Vec<UserSet>,
    /// Who derives the access key of each inner vertex: its holders.
    pub access: Vec<UserSet>,
}

impl InnerKnowers {
    /// Follows the inner tokens of the book.
    pub fn of(book: &Book) -> InnerKnowers {
        let mut derivation = starters(&book.inner_vertices, book.joined());
        let steps = || {
            book.inner_tokens
                .iter()
                .filter(|token| token.kind == KIND_DERIVATION)
                .map(|token| (token.from.index(), token.to.index()))
        };
        while spread(&mut derivation, steps()) {}
        let mut access = derivation.clone();
        for token in &book.inner_tokens {
            if token.kind == KIND_ACCESS {
                if let (Some(&known), Some(to)) = (
                    derivation.get(token.from.index()),
                    access.get_mut(token.to.index()),
                ) {
                    *to = to.union(known);
                }
            }
        }
        InnerKnowers { derivation, access }
    }

    /// The holders of an inner vertex: the users who derive its access key.
    pub fn holders(&self, vertex: InnerVertex) -> UserSet {
        self.access
            .get(vertex.index())
            .copied()
            .unwrap_or(UserSet::EMPTY)
    }
}

/// For each outer key, who derives it.
pub fn outer_knowers(book: &Book) -> Vec<UserSet> {
    let mut known = starters(&book.outer_vertices, book.joined());
    let steps = || {
        book.outer_tokens
            .iter()
            .map(|token| (token.from.index(), token.to.index()))
    };
    while spread(&mut known, steps()) {}
    known
}

/// Who has each vertex's key before any token is followed.
fn starters(sets: &[UserSet], joined: UserSet) -> Vec<UserSet> {
    sets.iter()
        .map(|set| match set.only_user() {
            Some(user) if joined.names(user) => *set,
            _ => UserSet::EMPTY,
        })
        .collect()
}

/// Follows every step once; whether anyone learned anything.
fn spread(known: &mut [UserSet], steps: impl Iterator<Item = (usize, usize)>) -> bool {
    let mut more = false;
    for (from, to) in steps {
        let source = known.get(from).copied();
        if let (Some(source), Some(target)) = (source, known.get_mut(to)) {
            let grown = target.union(source);
            more |= grown != *target;
            *target = grown;
        }
    }
    more
}

/// The holders of one inner vertex.
pub fn holders(book: &Book, vertex: InnerVertex) -> UserSet {
    InnerKnowers::of(book).holders(vertex)
}

/// The user's view of the resource, if the resource exists.
pub fn view(book: &Book, user: User, resource: Resource) -> Option<View> {
    let row = book.resource(resource)?;
    Some(keys_of(book, user).view(row))
}
