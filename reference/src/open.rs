//! Open: the rows of tokens by which a user comes to a folder's two keys.

use crate::book::{SoundBook, KIND_ACCESS, KIND_DERIVATION};
use crate::derive::keys_of;
use crate::numbers::{InnerVertex, OuterVertex, Resource, User};
use crate::refusal::{Refusal, View};

/// The token rows of both layers, first token first.
#[derive(Clone, Debug, Default, PartialEq, Eq)]
pub struct Chains {
    /// Rows of the inner token table.
    pub inner: Vec<u16>,
    /// Rows of the outer token table.
    pub outer: Vec<u16>,
}

impl Chains {
    /// Rows of both chains together.
    pub fn count(&self) -> usize {
        self.inner.len() + self.outer.len()
    }
}

impl SoundBook {
    /// The user's view of the resource. Refusal: 1.
    pub fn view(&self, user: User, resource: Resource) -> Result<View, Refusal> {
        if user.0 >= self.0.users {
            return Err(Refusal::NOT_THERE);
        }
        let row = self.0.resource(resource).ok_or(Refusal::NOT_THERE)?;
        Ok(keys_of(&self.0, user).view(row))
    }

    /// The chains by which the user opens the resource. `room` is the count
    /// of rows there is place for. Refusals: 1, 11, 10.
    pub fn open(&self, user: User, resource: Resource, room: usize) -> Result<Chains, Refusal> {
        let view = self.view(user, resource)?;
        if view != View::Open {
            return Err(Refusal::closed(view));
        }
        let row = self.0.resource(resource).ok_or(Refusal::NOT_THERE)?;
        let chains = Chains {
            inner: self.inner_chain(user, row.inner),
            outer: row
                .outer
                .map_or_else(Vec::new, |vertex| self.outer_chain(user, vertex)),
        };
        if chains.count() > room {
            return Err(Refusal::TOO_SHORT);
        }
        Ok(chains)
    }

    fn inner_chain(&self, user: User, target: InnerVertex) -> Vec<u16> {
        let book = &self.0;
        let sets = &book.inner_vertices;
        if sets[target.index()].names(user) {
            return walk_back(
                target.index(),
                book.own_inner_vertex(user).map(InnerVertex::index),
                |to| {
                    book.inner_tokens
                        .iter()
                        .position(|token| {
                            token.kind == KIND_DERIVATION
                                && token.to.index() == to
                                && sets[token.from.index()].names(user)
                        })
                        .map(|row| (row, book.inner_tokens[row].from.index()))
                },
            );
        }
        let own = book.own_inner_vertex(user);
        book.inner_tokens
            .iter()
            .position(|token| {
                token.kind == KIND_ACCESS && token.to == target && Some(token.from) == own
            })
            .map(|row| row as u16)
            .into_iter()
            .collect()
    }

    fn outer_chain(&self, user: User, target: OuterVertex) -> Vec<u16> {
        let book = &self.0;
        let sets = &book.outer_vertices;
        walk_back(
            target.index(),
            book.own_outer_vertex(user).map(OuterVertex::index),
            |to| {
                book.outer_tokens
                    .iter()
                    .position(|token| {
                        token.to.index() == to && sets[token.from.index()].names(user)
                    })
                    .map(|row| (row, book.outer_tokens[row].from.index()))
            },
        )
    }
}

/// Goes back from the target to the own vertex; `entering` gives, for a
/// vertex, the row to take and where that row starts. In a sound book there
/// always is one (S5), and the sets fall at each step (S4), so the walk ends.
fn walk_back(
    target: usize,
    own: Option<usize>,
    entering: impl Fn(usize) -> Option<(usize, usize)>,
) -> Vec<u16> {
    let mut rows = Vec::new();
    let mut vertex = target;
    while Some(vertex) != own {
        let Some((row, from)) = entering(vertex) else {
            break;
        };
        rows.push(row as u16);
        vertex = from;
    }
    rows.reverse();
    rows
}
