//! The requests that change the book, and their orders to the host.
//!
//! Each request is worked out on the tables as if they had no limits. Only
//! then are the limits and the room for the orders judged; if one does not
//! suffice, everything is taken back.

use std::fmt;

use crate::book::{
    Book, InnerToken, Mode, OuterToken, ResourceRow, SoundBook, KIND_ACCESS, KIND_DERIVATION,
    MAX_INNER_TOKENS, MAX_OUTER_GROUPS, MAX_OUTER_TOKENS, MAX_RESOURCES, MAX_USERS, NO_OUTER_KEY,
};
use crate::derive;
use crate::numbers::{InnerVertex, OuterVertex, Resource, User};
use crate::open::Chains;
use crate::refusal::Refusal;
use crate::sets::UserSet;

/// An order to the host.
#[derive(Clone, Copy, Debug, PartialEq, Eq)]
pub enum Order {
    /// 1: a new outer vertex.
    OuterVertex(OuterVertex),
    /// 2: a new outer token.
    OuterToken(OuterVertex, OuterVertex),
    /// 3: lock the resource with that vertex's key, or with none.
    Relock(Resource, Option<OuterVertex>),
    /// 4: a new inner vertex.
    InnerVertex(InnerVertex),
    /// 5: a new inner token to a derivation key.
    DerivationToken(InnerVertex, InnerVertex),
    /// 6: a new inner token to an access key.
    AccessToken(InnerVertex, InnerVertex),
    /// 7: encrypt the new resource with that vertex's access key.
    Encrypt(Resource, InnerVertex),
}

impl Order {
    /// The order as a row: its kind and two numbers.
    pub fn row(self) -> [u16; 3] {
        match self {
            Order::OuterVertex(v) => [1, v.0, 0],
            Order::OuterToken(from, to) => [2, from.0, to.0],
            Order::Relock(r, v) => [3, r.0, v.map_or(NO_OUTER_KEY, |v| v.0)],
            Order::InnerVertex(v) => [4, v.0, 0],
            Order::DerivationToken(from, to) => [5, from.0, to.0],
            Order::AccessToken(from, to) => [6, from.0, to.0],
            Order::Encrypt(r, v) => [7, r.0, v.0],
        }
    }
}

/// The list of an insert, as asked for.
#[derive(Clone, Copy, Debug, PartialEq, Eq)]
pub struct List {
    /// The users it names, among those a set can hold.
    pub set: UserSet,
    /// Whether it also names a user above 63, who exists nowhere.
    pub beyond: bool,
}

impl From<UserSet> for List {
    fn from(set: UserSet) -> List {
        List { set, beyond: false }
    }
}

/// A request.
#[derive(Clone, Copy, Debug, PartialEq, Eq)]
pub enum Request {
    /// A new user.
    Join,
    /// A new resource for a list.
    Insert(List),
    /// A user more on the list.
    Grant(Resource, User),
    /// A user less on the list.
    Revoke(Resource, User),
    /// A user less on every list, for good.
    Leave(User),
    /// The way to the keys.
    Open(User, Resource),
}

impl fmt::Display for Request {
    /// The request as a line of the request program.
    fn fmt(&self, f: &mut fmt::Formatter<'_>) -> fmt::Result {
        match self {
            Request::Join => write!(f, "join"),
            Request::Insert(list) => {
                write!(f, "insert")?;
                for user in list.set.users() {
                    write!(f, " {}", user.0)?;
                }
                if list.beyond {
                    write!(f, " 64")?;
                }
                Ok(())
            }
            Request::Grant(r, u) => write!(f, "grant {} {}", r.0, u.0),
            Request::Revoke(r, u) => write!(f, "revoke {} {}", r.0, u.0),
            Request::Leave(u) => write!(f, "leave {}", u.0),
            Request::Open(u, r) => write!(f, "open {} {}", u.0, r.0),
        }
    }
}

/// What an accepted request answers.
#[derive(Clone, Debug, PartialEq, Eq)]
pub enum Answer {
    /// The orders of a request that changed the book.
    Orders(Vec<Order>),
    /// The chains of an open.
    Chains(Chains),
}

impl Answer {
    /// How many rows it has.
    pub fn count(&self) -> usize {
        match self {
            Answer::Orders(orders) => orders.len(),
            Answer::Chains(chains) => chains.count(),
        }
    }
}

impl SoundBook {
    /// Answers any request. `room` is the count of rows there is place for.
    pub fn answer(&mut self, request: &Request, room: usize) -> Result<Answer, Refusal> {
        match *request {
            Request::Join => self.join(room).map(Answer::Orders),
            Request::Insert(list) => self.insert(list, room).map(Answer::Orders),
            Request::Grant(r, u) => self.grant(r, u, room).map(Answer::Orders),
            Request::Revoke(r, u) => self.revoke(r, u, room).map(Answer::Orders),
            Request::Leave(u) => self.leave(u, room).map(Answer::Orders),
            Request::Open(u, r) => self.open(u, r, room).map(Answer::Chains),
        }
    }

    /// Join: a vertex for the new user in both layers. Refusals: 2, 10.
    pub fn join(&mut self, room: usize) -> Result<Vec<Order>, Refusal> {
        if usize::from(self.0.users) >= MAX_USERS {
            return Err(Refusal::USERS_FULL);
        }
        let mut work = Work::begin(&mut self.0);
        work.join();
        work.finish(room)
    }

    /// Insert: a new resource for the list. Refusals: 1, 15, 4, 3, 7, 8, 9,
    /// 10.
    pub fn insert(&mut self, list: impl Into<List>, room: usize) -> Result<Vec<Order>, Refusal> {
        let List { set, beyond } = list.into();
        if beyond || !set.within(self.0.joined()) {
            return Err(Refusal::NOT_THERE);
        }
        if !set.common(self.0.leavers).is_empty() {
            return Err(Refusal::HAS_LEFT);
        }
        if set.is_empty() {
            return Err(Refusal::EMPTY_LIST);
        }
        if self.0.resources.len() >= MAX_RESOURCES {
            return Err(Refusal::RESOURCES_FULL);
        }
        let mode = self.mode();
        let mut work = Work::begin(&mut self.0);
        work.insert(mode, set);
        work.finish(room)
    }

    /// Grant: the user goes on the list. Refusals: 1, 15, 5, 7, 8, 9, 10.
    pub fn grant(&mut self, r: Resource, u: User, room: usize) -> Result<Vec<Order>, Refusal> {
        let listed = self.row_for(r, u)?.list.names(u);
        if self.0.leavers.names(u) {
            return Err(Refusal::HAS_LEFT);
        }
        if listed {
            return Err(Refusal::LISTED);
        }
        let mode = self.mode();
        let mut work = Work::begin(&mut self.0);
        work.grant(mode, r, u);
        work.finish(room)
    }

    /// Revoke: the user comes off the list. Refusals: 1, 6, 7, 9, 10.
    pub fn revoke(&mut self, r: Resource, u: User, room: usize) -> Result<Vec<Order>, Refusal> {
        if !self.row_for(r, u)?.list.names(u) {
            return Err(Refusal::NOT_LISTED);
        }
        let mut work = Work::begin(&mut self.0);
        work.revoke(r, u);
        work.finish(room)
    }

    /// Leave: the user comes off every list, and never on one again.
    /// Refusals: 1, 15, 7, 9, 10.
    pub fn leave(&mut self, u: User, room: usize) -> Result<Vec<Order>, Refusal> {
        if u.0 >= self.0.users {
            return Err(Refusal::NOT_THERE);
        }
        if self.0.leavers.names(u) {
            return Err(Refusal::HAS_LEFT);
        }
        let mut work = Work::begin(&mut self.0);
        work.leave(u);
        work.finish(room)
    }

    /// The resource's row, if both the resource and the user exist.
    fn row_for(&self, r: Resource, u: User) -> Result<&ResourceRow, Refusal> {
        if u.0 >= self.0.users {
            return Err(Refusal::NOT_THERE);
        }
        self.0.resource(r).ok_or(Refusal::NOT_THERE)
    }
}

/// A request under way: the book it works on, the orders so far, and what is
/// needed to take all of it back.
struct Work<'a> {
    book: &'a mut Book,
    orders: Vec<Order>,
    /// The users and leavers before, and the tables' lengths: nothing but a
    /// resource's row ever changes once it is there.
    users: u16,
    leavers: UserSet,
    lengths: [usize; 5],
    /// Changed resource rows as they were, in the order of the changes.
    rows: Vec<(Resource, ResourceRow)>,
}

impl<'a> Work<'a> {
    fn begin(book: &'a mut Book) -> Work<'a> {
        Work {
            users: book.users,
            leavers: book.leavers,
            lengths: [
                book.inner_vertices.len(),
                book.inner_tokens.len(),
                book.outer_vertices.len(),
                book.outer_tokens.len(),
                book.resources.len(),
            ],
            book,
            orders: Vec::new(),
            rows: Vec::new(),
        }
    }

    /// Judges what the work left: 7, 8, 9, then 10.
    fn finish(self, room: usize) -> Result<Vec<Order>, Refusal> {
        let refusal = if self.book.outer_groups() > MAX_OUTER_GROUPS {
            Refusal::OUTER_GROUPS_FULL
        } else if self.book.inner_tokens.len() > MAX_INNER_TOKENS {
            Refusal::INNER_TOKENS_FULL
        } else if self.book.outer_tokens.len() > MAX_OUTER_TOKENS {
            Refusal::OUTER_TOKENS_FULL
        } else if self.orders.len() > room {
            Refusal::TOO_SHORT
        } else {
            return Ok(self.orders);
        };
        self.take_back();
        Err(refusal)
    }

    fn take_back(self) {
        let [inner_vertices, inner_tokens, outer_vertices, outer_tokens, resources] = self.lengths;
        for &(r, row) in self.rows.iter().rev() {
            self.book.resources[r.index()] = row;
        }
        self.book.users = self.users;
        self.book.leavers = self.leavers;
        self.book.inner_vertices.truncate(inner_vertices);
        self.book.inner_tokens.truncate(inner_tokens);
        self.book.outer_vertices.truncate(outer_vertices);
        self.book.outer_tokens.truncate(outer_tokens);
        self.book.resources.truncate(resources);
    }

    fn join(&mut self) {
        let alone = UserSet::alone(User(self.book.users));
        self.book.users += 1;
        self.add_inner_vertex(alone);
        self.add_outer_vertex(alone);
    }

    fn insert(&mut self, mode: Mode, list: UserSet) {
        let r = Resource::at(self.book.resources.len());
        let inner = self.inner_vertex_for(list);
        self.book.resources.push(ResourceRow {
            list,
            inner,
            outer: None,
        });
        match mode {
            Mode::Full => self.lock(r, list),
            Mode::Delta => {
                if derive::holders(self.book, inner) != list {
                    self.lock(r, list);
                }
            }
        }
        // Last, so that the host never has the folder without its lock.
        self.orders.push(Order::Encrypt(r, inner));
    }

    fn grant(&mut self, mode: Mode, r: Resource, u: User) {
        let ResourceRow { list, inner, .. } = self.book.resources[r.index()];
        let list = list.with(u);
        self.set_list(r, list);

        let mut holders = derive::holders(self.book, inner);
        let mut publish = None;
        if !holders.names(u) {
            if let Some(from) = self.book.own_inner_vertex(u) {
                self.book.inner_tokens.push(InnerToken {
                    from,
                    to: inner,
                    kind: KIND_ACCESS,
                });
                publish = Some(Order::AccessToken(from, inner));
            }
            holders = derive::holders(self.book, inner);
        }

        let neighbours = self.neighbours(r, inner, holders);
        for (list, neighbour) in neighbours {
            self.lock(neighbour, list);
        }

        match mode {
            Mode::Delta if holders == list => self.unlock(r),
            _ => self.lock(r, list),
        }
        // Last, so that the neighbours are locked before it goes up.
        self.orders.extend(publish);
    }

    /// The other resources with the inner vertex whose list is not the
    /// holders: grouped by equal list, groups by lowest resource number,
    /// ascending in each group.
    fn neighbours(
        &self,
        r: Resource,
        inner: InnerVertex,
        holders: UserSet,
    ) -> Vec<(UserSet, Resource)> {
        let mut others: Vec<(UserSet, Resource)> = self
            .book
            .resources
            .iter()
            .enumerate()
            .filter(|(place, row)| *place != r.index() && row.inner == inner && row.list != holders)
            .map(|(place, row)| (row.list, Resource::at(place)))
            .collect();
        others.sort_unstable();
        let mut groups: Vec<&[(UserSet, Resource)]> =
            others.chunk_by(|one, next| one.0 == next.0).collect();
        groups.sort_unstable_by_key(|group| group[0].1);
        groups.concat()
    }

    fn revoke(&mut self, r: Resource, u: User) {
        let list = self.book.resources[r.index()].list.without(u);
        self.set_list(r, list);
        self.lock(r, list);
    }

    fn leave(&mut self, u: User) {
        for place in 0..self.book.resources.len() {
            if self.book.resources[place].list.names(u) {
                self.revoke(Resource::at(place), u);
            }
        }
        self.book.leavers = self.book.leavers.with(u);
    }

    /// Lock r for the set.
    fn lock(&mut self, r: Resource, set: UserSet) {
        if let Some(outer) = self.book.resources[r.index()].outer {
            if self.book.outer_vertices[outer.index()] == set {
                return;
            }
        }
        let outer = self.outer_vertex_for(set);
        self.relock(r, Some(outer));
    }

    /// Unlock r.
    fn unlock(&mut self, r: Resource) {
        if self.book.resources[r.index()].outer.is_some() {
            self.relock(r, None);
        }
    }

    fn relock(&mut self, r: Resource, outer: Option<OuterVertex>) {
        self.remember(r);
        self.book.resources[r.index()].outer = outer;
        self.orders.push(Order::Relock(r, outer));
    }

    fn set_list(&mut self, r: Resource, list: UserSet) {
        self.remember(r);
        self.book.resources[r.index()].list = list;
    }

    fn remember(&mut self, r: Resource) {
        self.rows.push((r, self.book.resources[r.index()]));
    }

    /// Finds or makes the inner vertex for a set.
    fn inner_vertex_for(&mut self, set: UserSet) -> InnerVertex {
        if let Some(vertex) = self.book.inner_vertex_of(set) {
            return vertex;
        }
        let sources = cover(&self.book.inner_vertices, set);
        let vertex = self.add_inner_vertex(set);
        for source in sources {
            self.add_derivation_token(InnerVertex::at(source), vertex);
        }
        vertex
    }

    /// Finds or makes the outer vertex for a set.
    fn outer_vertex_for(&mut self, set: UserSet) -> OuterVertex {
        if let Some(vertex) = self.book.outer_vertex_of(set) {
            return vertex;
        }
        let sources = cover(&self.book.outer_vertices, set);
        let vertex = self.add_outer_vertex(set);
        for source in sources {
            self.add_outer_token(OuterVertex::at(source), vertex);
        }
        vertex
    }

    fn add_inner_vertex(&mut self, set: UserSet) -> InnerVertex {
        let vertex = InnerVertex::at(self.book.inner_vertices.len());
        self.book.inner_vertices.push(set);
        self.orders.push(Order::InnerVertex(vertex));
        vertex
    }

    fn add_outer_vertex(&mut self, set: UserSet) -> OuterVertex {
        let vertex = OuterVertex::at(self.book.outer_vertices.len());
        self.book.outer_vertices.push(set);
        self.orders.push(Order::OuterVertex(vertex));
        vertex
    }

    fn add_derivation_token(&mut self, from: InnerVertex, to: InnerVertex) {
        let kind = KIND_DERIVATION;
        self.book.inner_tokens.push(InnerToken { from, to, kind });
        self.orders.push(Order::DerivationToken(from, to));
    }

    fn add_outer_token(&mut self, from: OuterVertex, to: OuterVertex) {
        self.book.outer_tokens.push(OuterToken { from, to });
        self.orders.push(Order::OuterToken(from, to));
    }
}

/// The vertices from which a new vertex for the set gets its tokens, in the
/// order they are taken: those with a set strictly inside it, larger sets
/// first, lower number first among equals, each if it has a user not yet
/// covered.
pub fn cover(sets: &[UserSet], set: UserSet) -> Vec<usize> {
    let mut inside: Vec<(u32, usize)> = sets
        .iter()
        .enumerate()
        .filter(|(_, other)| other.strictly_within(set))
        .map(|(place, other)| (64 - other.size(), place))
        .collect();
    inside.sort_unstable();
    let mut uncovered = set;
    let mut taken = Vec::new();
    for (_, place) in inside {
        if uncovered.is_empty() {
            break;
        }
        if !sets[place].common(uncovered).is_empty() {
            uncovered = uncovered.minus(sets[place]);
            taken.push(place);
        }
    }
    taken
}
