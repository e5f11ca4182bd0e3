//! Random runs that verify every step.
//!
//! A [`World`] is a book, the same book in lent tables, and a host that only
//! obeys orders. [`World::step`] makes one request on all of them and
//! verifies what must then hold; [`run`] makes many in many worlds.

use std::fmt;
use std::ops::RangeInclusive;

use crate::book::{Book, Mode, SoundBook, KIND_ACCESS, KIND_DERIVATION};
use crate::bytes::{self, Version};
use crate::derive::{keys_of, outer_knowers, InnerKnowers, Key, KeySet};
use crate::generate::{self, Random, Shape};
use crate::host::{Host, Task};
use crate::lent::{self, Store};
use crate::numbers::{InnerVertex, OuterVertex, Resource, User};
use crate::open::Chains;
use crate::refusal::{Refusal, View};
use crate::requests::{Answer, List, Order, Request};
use crate::sets::UserSet;
use crate::sound::sound;
use crate::stops::{Breach, Watch};

/// What stands in every lent byte that belongs to nobody.
const UNUSED: u8 = 0xA7;
/// What stands in every lent number that belongs to nobody.
const UNUSED_NUMBER: u16 = 0xA7A7;

/// How much of a world to look at after a step.
#[derive(Clone, Copy, Debug, PartialEq, Eq)]
pub enum Care {
    /// Every user and every resource.
    All,
    /// A few users, chosen by this number, and all that is cheap.
    Some(u64),
}

/// A book, the same in lent tables, and a host.
#[derive(Clone, Debug)]
pub struct World {
    book: SoundBook,
    store: Store,
    host: Host,
}

macro_rules! must {
    ($held:expr, $($text:tt)+) => {
        if !$held {
            return Err(format!($($text)+));
        }
    };
}

impl World {
    /// The world of a book, which must be sound.
    pub fn of(book: Book) -> Result<World, String> {
        let store = Store::of(&book, UNUSED);
        let host = Host::of(&book, 0xB00C)?;
        let book = SoundBook::new(book).map_err(|rule| format!("starts unsound: {rule:?}"))?;
        Ok(World { book, store, host })
    }

    /// The book.
    pub fn book(&self) -> &Book {
        self.book.book()
    }

    /// Makes the request and verifies what must then hold.
    pub fn step(&mut self, request: &Request, care: Care) -> Result<(), String> {
        let before = self.book.book().clone();
        let result = self.book.answer(request, usize::MAX);
        match &result {
            Ok(Answer::Orders(orders)) => {
                check_orders(&before, request, orders)?;
                self.host_step(&before, request, orders, care)?;
            }
            Ok(Answer::Chains(_)) => {
                must!(self.book.book() == &before, "an open changed the book");
            }
            Err(no) => {
                must!(
                    self.book.book() == &before,
                    "a refused request changed the book: {no}"
                );
            }
        }
        check_answer(&before, self.book.book(), request, &result)?;
        self.lent_step(&before, request, &result)?;
        check_book(self.book.book(), &self.host, care)
    }

    /// The orders at the host, with a look at the stops between them: at all,
    /// or at one.
    fn host_step(
        &mut self,
        before: &Book,
        request: &Request,
        orders: &[Order],
        care: Care,
    ) -> Result<(), String> {
        let breach = |breach: Breach| format!("a stop of the host: {breach:?}");
        let task = Task::of(before, request, orders);
        let watch = Watch::of(self.host.clone(), before, request, task).map_err(breach)?;
        let after = self.book.book();
        for stop in stops(watch.last(), care) {
            for user in looked_at(after, care) {
                if let Some(found) = watch.stop(stop, user).pop() {
                    return Err(breach(found));
                }
            }
            watch.again(stop).map_err(breach)?;
        }
        self.host = watch.end(after).map_err(breach)?;
        Ok(())
    }

    /// The same request on the lent tables.
    fn lent_step(
        &mut self,
        before: &Book,
        request: &Request,
        result: &Result<Answer, Refusal>,
    ) -> Result<(), String> {
        let head = before.head();
        let untouched = self.store.clone();
        let rows = result.as_ref().map_or(0, Answer::count);

        // One row short is 10, and nothing is touched.
        if rows > 0 {
            let mut list = vec![UNUSED_NUMBER; list_length(request, rows - 1)];
            let short = lent_call(&head, &mut self.store, request, &mut list);
            must!(
                short == Err(Refusal::TOO_SHORT),
                "lent, one row short: {short:?}"
            );
            must!(
                self.store == untouched && list.iter().all(|&n| n == UNUSED_NUMBER),
                "lent, one row short: something was touched"
            );
        }

        // With the rows it needs and some that are not its own.
        let mut list = vec![UNUSED_NUMBER; list_length(request, rows + 2)];
        let given = lent_call(&head, &mut self.store, request, &mut list);
        let expected = match result {
            Ok(Answer::Orders(orders)) => Ok((
                self.book.book().head(),
                orders.iter().flat_map(|order| order.row()).collect(),
            )),
            Ok(Answer::Chains(chains)) => {
                Ok((head, [&chains.inner[..], &chains.outer[..]].concat()))
            }
            Err(no) => Err(*no),
        };
        match (&given, &expected) {
            (Ok(new_head), Ok((expected_head, numbers))) => {
                must!(new_head == expected_head, "lent: another head");
                let (own, rest) = list.split_at(numbers.len());
                must!(own == numbers.as_slice(), "lent: other rows");
                must!(
                    rest.iter().all(|&n| n == UNUSED_NUMBER),
                    "lent: touched list rows past the answer"
                );
            }
            (Err(given), Err(expected)) => {
                // A list can be too short only for something accepted.
                must!(given == expected, "lent: {given}, not {expected}");
                must!(self.store == untouched, "lent: a refusal touched a table");
                must!(
                    list.iter().all(|&n| n == UNUSED_NUMBER),
                    "lent: a refusal touched the list"
                );
            }
            _ => return Err(format!("lent: {given:?}, not {expected:?}")),
        }
        must!(
            self.store == Store::of(self.book.book(), UNUSED),
            "lent: the tables are not the book's rows with the rest untouched"
        );
        Ok(())
    }
}

/// Numbers in a lent list with so many rows: opens have one to a row.
fn list_length(request: &Request, rows: usize) -> usize {
    match request {
        Request::Open(..) => rows,
        _ => rows * 3,
    }
}

fn lent_call(
    head: &crate::book::Head,
    store: &mut Store,
    request: &Request,
    list: &mut [u16],
) -> Result<crate::book::Head, Refusal> {
    let mut tables = store.lend();
    match *request {
        Request::Join => lent::join(head, &mut tables, list).map(|done| done.0),
        // A set can not name a user above 63; whoever gets such a list
        // answers 1, as to any list of one who has not joined.
        Request::Insert(list) if list.beyond => Err(Refusal::NOT_THERE),
        Request::Insert(asked) => {
            lent::insert(head, &mut tables, asked.set.0, list).map(|done| done.0)
        }
        Request::Grant(r, u) => lent::grant(head, &mut tables, r.0, u.0, list).map(|done| done.0),
        Request::Revoke(r, u) => lent::revoke(head, &mut tables, r.0, u.0, list).map(|done| done.0),
        Request::Leave(u) => lent::leave(head, &mut tables, u.0, list).map(|done| done.0),
        Request::Open(u, r) => lent::open(head, &tables, u.0, r.0, list).map(|_| *head),
    }
}

/// The bounds on the orders of one accepted request, and that at most one
/// group of neighbours needed work.
fn check_orders(before: &Book, request: &Request, orders: &[Order]) -> Result<(), String> {
    let count = orders.len();
    let new_outer = orders
        .iter()
        .filter(|order| matches!(order, Order::OuterVertex(_)))
        .count();
    match *request {
        Request::Join => must!(count == 2, "a join with {count} orders"),
        Request::Insert(_) => must!(
            (1..=132).contains(&count) && new_outer <= 1,
            "an insert with {count} orders"
        ),
        Request::Grant(r, _) => {
            must!((1..=385).contains(&count), "a grant with {count} orders");
            must!(new_outer <= 2, "a grant made {new_outer} outer vertices");
            let mut lists: Vec<UserSet> = orders
                .iter()
                .filter_map(|order| match order {
                    Order::Relock(other, _) if *other != r => Some(before.resource(*other)?.list),
                    _ => None,
                })
                .collect();
            lists.dedup();
            must!(
                lists.len() <= 1,
                "{} groups of neighbours needed work",
                lists.len()
            );
        }
        Request::Revoke(..) => must!(
            (1..=65).contains(&count) && new_outer <= 1,
            "a revoke with {count} orders"
        ),
        Request::Leave(_) => must!(count <= 4608, "a leave with {count} orders"),
        Request::Open(..) => return Err("an open gave orders".into()),
    }
    Ok(())
}

/// Whether the answer is the one the lists ask for, and the list changed as
/// asked.
fn check_answer(
    before: &Book,
    after: &Book,
    request: &Request,
    result: &Result<Answer, Refusal>,
) -> Result<(), String> {
    let number = result.as_ref().err().map_or(0, |no| no.number);
    let there = |r: Resource, u: User| u.0 < before.users && r.index() < before.resources.len();
    let listed = |r: Resource, u: User| before.resources[r.index()].list.names(u);
    let allowed: &[u8] = match *request {
        Request::Join if before.users == 64 => &[2],
        Request::Join => &[0],
        Request::Insert(list) if list.beyond || !list.set.within(before.joined()) => &[1],
        Request::Insert(list) if !list.set.within(before.staying()) => &[15],
        Request::Insert(list) if list.set.is_empty() => &[4],
        Request::Insert(_) if before.resources.len() == 256 => &[3],
        Request::Insert(_) => &[0, 7, 8, 9],
        Request::Grant(r, u) | Request::Revoke(r, u) | Request::Open(u, r) if !there(r, u) => &[1],
        Request::Grant(_, u) if before.leavers.names(u) => &[15],
        Request::Grant(r, u) if listed(r, u) => &[5],
        Request::Grant(..) => &[0, 7, 8, 9],
        Request::Revoke(r, u) if !listed(r, u) => &[6],
        Request::Revoke(..) => &[0, 7, 9],
        Request::Leave(u) if u.0 >= before.users => &[1],
        Request::Leave(u) if before.leavers.names(u) => &[15],
        Request::Leave(_) => &[0, 7, 9],
        Request::Open(u, r) if listed(r, u) => &[0],
        Request::Open(..) => &[11],
    };
    must!(
        allowed.contains(&number),
        "answered {number}, not {allowed:?}"
    );
    if let (Request::Leave(u), [0, 7, 9]) = (*request, allowed) {
        check_leave(before, after, u, result)?;
    }
    if number != 0 {
        return Ok(());
    }
    let mut lists: Vec<UserSet> = before.resources.iter().map(|row| row.list).collect();
    let mut leavers = before.leavers;
    match *request {
        Request::Insert(list) => lists.push(list.set),
        Request::Grant(r, u) => lists[r.index()] = lists[r.index()].with(u),
        Request::Revoke(r, u) => lists[r.index()] = lists[r.index()].without(u),
        Request::Leave(u) => {
            lists.iter_mut().for_each(|list| *list = list.without(u));
            leavers = leavers.with(u);
        }
        Request::Join | Request::Open(..) => {}
    }
    must!(
        after.resources.iter().map(|row| row.list).eq(lists),
        "the lists are not as asked for"
    );
    let joined = before.users + u16::from(*request == Request::Join);
    must!(after.users == joined, "the users are not as asked for");
    must!(after.leavers == leavers, "the leavers are not as asked for");
    Ok(())
}

/// A leave does what the revokes do that it stands for, one by one; and it is
/// refused exactly if one of them would be.
fn check_leave(
    before: &Book,
    after: &Book,
    u: User,
    result: &Result<Answer, Refusal>,
) -> Result<(), String> {
    let mut book = SoundBook(before.clone());
    let mut orders = Vec::new();
    for (place, row) in before.resources.iter().enumerate() {
        if row.list.names(u) {
            match book.revoke(Resource::at(place), u, usize::MAX) {
                Ok(more) => orders.extend(more),
                Err(no) => {
                    must!(result.is_err(), "folder {place} alone gets {no}");
                    return Ok(());
                }
            }
        }
    }
    book.0.leavers = before.leavers.with(u);
    must!(
        *result == Ok(Answer::Orders(orders)),
        "a leave gave {result:?}, not what its revokes give"
    );
    must!(book.book() == after, "a leave left another book");
    Ok(())
}

/// All that must hold of a book and its host at any time.
pub fn check_book(book: &Book, host: &Host, care: Care) -> Result<(), String> {
    sound(book).map_err(|rule| format!("the book breaks {rule:?}"))?;
    host.agrees(book)?;
    check_bytes(book)?;
    check_no_circle(book)?;

    let inner = InnerKnowers::of(book);
    let outer = outer_knowers(book);
    for (place, row) in book.resources.iter().enumerate() {
        let locks = row
            .outer
            .map_or(book.joined(), |vertex| outer[vertex.index()]);
        must!(
            inner.holders(row.inner).common(locks) == row.list,
            "those who derive the keys of resource {place} are not its list"
        );
    }

    let most_resources = match care {
        Care::All => usize::MAX,
        Care::Some(_) => 24,
    };
    let judged = SoundBook(book.clone());
    for user in looked_at(book, care) {
        let keys = keys_of(book, user);
        check_same_keys(book, user, &keys, &inner, &outer)?;
        let derived = host.derive(user);
        for place in 0..book.resources.len() {
            let row = &book.resources[place];
            let open = row.list.names(user);
            must!(
                (keys.view(row) == View::Open) == open,
                "user {} does not derive what opens resource {place} exactly if listed",
                user.0
            );
            must!(
                host.opens(&derived, place) == open,
                "at the host, user {} does not open resource {place} exactly if listed",
                user.0
            );
            // The walk is looked at on a part where there are many.
            if (place + user.index()) % book.resources.len().div_ceil(most_resources) == 0 {
                check_open(&judged, user, Resource::at(place), keys.view(row))?;
            }
        }
    }
    Ok(())
}

/// The users to look at: all, or a few.
fn looked_at(book: &Book, care: Care) -> Vec<User> {
    match care {
        Care::All => book.joined().users().collect(),
        Care::Some(number) => {
            let mut random = Random::new(number);
            (0..3)
                .filter_map(|_| generate::member(&mut random, book.joined()))
                .collect()
        }
    }
}

/// The stops in so many orders to look at: all, or one.
fn stops(orders: usize, care: Care) -> RangeInclusive<usize> {
    match care {
        Care::All => 0..=orders,
        Care::Some(number) => {
            let stop = Random::new(number).below(orders + 1);
            stop..=stop
        }
    }
}

/// The two ways to derive agree.
fn check_same_keys(
    book: &Book,
    user: User,
    keys: &KeySet,
    inner: &InnerKnowers,
    outer: &[UserSet],
) -> Result<(), String> {
    for place in 0..book.inner_vertices.len() {
        let vertex = InnerVertex::at(place);
        must!(
            keys.has(Key::InnerDerivation(vertex)) == inner.derivation[place].names(user)
                && keys.has(Key::InnerAccess(vertex)) == inner.access[place].names(user),
            "two derivations differ at inner vertex {place} for user {}",
            user.0
        );
    }
    for (place, known) in outer.iter().enumerate() {
        must!(
            keys.has(Key::Outer(OuterVertex::at(place))) == known.names(user),
            "two derivations differ at outer vertex {place} for user {}",
            user.0
        );
    }
    Ok(())
}

/// An open gives rows that lead from the own keys to the keys wanted, or the
/// view.
fn check_open(book: &SoundBook, user: User, r: Resource, view: View) -> Result<(), String> {
    let result = book.open(user, r, usize::MAX);
    if view != View::Open {
        must!(
            result == Err(Refusal::closed(view)),
            "open {} {}: {result:?} at view {view:?}",
            user.0,
            r.0
        );
        return Ok(());
    }
    let chains = result.map_err(|no| format!("open {} {}: {no}", user.0, r.0))?;
    must!(
        chains.inner.len() <= 63 && chains.outer.len() <= 63,
        "open {} {}: a chain of more than 63 rows",
        user.0,
        r.0
    );
    follow_chains(book.book(), user, r, &chains)
        .ok_or_else(|| format!("open {} {}: {chains:?} leads elsewhere", user.0, r.0))
}

/// Follows the chains row by row.
fn follow_chains(book: &Book, user: User, r: Resource, chains: &Chains) -> Option<()> {
    let row = book.resource(r)?;
    let target = book.inner_vertices[row.inner.index()];
    let mut key = Key::InnerDerivation(book.own_inner_vertex(user)?);
    for &number in &chains.inner {
        let token = book.inner_tokens.get(usize::from(number))?;
        if key != Key::InnerDerivation(token.from) {
            return None;
        }
        key = match token.kind {
            KIND_DERIVATION => Key::InnerDerivation(token.to),
            KIND_ACCESS => Key::InnerAccess(token.to),
            _ => return None,
        };
    }
    if let Key::InnerDerivation(vertex) = key {
        key = Key::InnerAccess(vertex);
    }
    let bound = if target.names(user) {
        target.size() as usize - 1
    } else {
        1
    };
    if key != Key::InnerAccess(row.inner) || chains.inner.len() > bound {
        return None;
    }

    let Some(lock) = row.outer else {
        return chains.outer.is_empty().then_some(());
    };
    let mut vertex = book.own_outer_vertex(user)?;
    for &number in &chains.outer {
        let token = book.outer_tokens.get(usize::from(number))?;
        if vertex != token.from {
            return None;
        }
        vertex = token.to;
    }
    let bound = book.outer_vertices[lock.index()].size() as usize - 1;
    (vertex == lock && chains.outer.len() <= bound).then_some(())
}

/// No chain of tokens comes back on itself: taking away, again and again,
/// the vertices that nothing enters takes all away.
fn check_no_circle(book: &Book) -> Result<(), String> {
    // Kind 1 tokens end at access keys, where nothing starts.
    let inner = book
        .inner_tokens
        .iter()
        .filter(|token| token.kind == KIND_DERIVATION)
        .map(|token| (token.from.index(), token.to.index()));
    let outer = book
        .outer_tokens
        .iter()
        .map(|token| (token.from.index(), token.to.index()));
    must!(
        no_circle(book.inner_vertices.len(), inner.collect()),
        "an inner chain comes back on itself"
    );
    must!(
        no_circle(book.outer_vertices.len(), outer.collect()),
        "an outer chain comes back on itself"
    );
    Ok(())
}

fn no_circle(vertices: usize, mut steps: Vec<(usize, usize)>) -> bool {
    steps.sort_unstable();
    let mut entering = vec![0u32; vertices];
    for &(_, to) in &steps {
        entering[to] += 1;
    }
    let mut free: Vec<usize> = (0..vertices).filter(|&v| entering[v] == 0).collect();
    let mut taken = 0;
    while let Some(vertex) = free.pop() {
        taken += 1;
        let start = steps.partition_point(|step| step.0 < vertex);
        for &(_, to) in steps[start..].iter().take_while(|step| step.0 == vertex) {
            entering[to] -= 1;
            if entering[to] == 0 {
                free.push(to);
            }
        }
    }
    taken == vertices
}

/// Bytes and book go over into each other both ways, and the sections are
/// the stretches of the bytes. Where nobody has left, bytes of version 1 are
/// the same book.
fn check_bytes(book: &Book) -> Result<(), String> {
    let written = bytes::write(book);
    must!(written.len() <= bytes::LARGEST, "larger than the largest");
    for version in Version::ALL {
        if version == Version::One && !book.leavers.is_empty() {
            continue;
        }
        let given = bytes::write_as(book, version);
        let read = bytes::read(&given).map_err(|fault| format!("its own bytes: {fault}"))?;
        must!(read.book() == book, "read back, the book is another");
        must!(
            bytes::write(read.book()) == written,
            "written again, the bytes are others"
        );
        let mut start = version.leavers().end;
        for k in 0..5 {
            let (mut cell, mut place) = (UNUSED_NUMBER, usize::MAX);
            let stretch = lent::section(&given, k, &mut cell, &mut place);
            must!(
                cell == 0 && place == 0 && stretch.as_ptr() == given[start..].as_ptr(),
                "section {k} starts elsewhere"
            );
            start += stretch.len();
        }
        must!(start == given.len(), "the sections are not the whole");
    }
    Ok(())
}

/// Where a run starts.
#[derive(Clone, Debug)]
struct Start {
    book: Book,
    /// Who joins before anything else.
    first_users: usize,
    most_users: usize,
    small: bool,
}

/// What a check did.
#[derive(Clone, Debug, Default, PartialEq, Eq)]
pub struct Summary {
    /// Runs, each in a world of its own.
    pub runs: usize,
    /// Runs that started from a random sound book.
    pub from_books: usize,
    /// Requests made.
    pub steps: usize,
    /// Requests accepted.
    pub accepted: usize,
    /// Answers by number; 0 for the accepted.
    pub answers: [usize; 16],
    /// Leaves that were accepted, and that were refused.
    pub leaves: [usize; 2],
    /// Most orders of one request.
    pub most_orders: usize,
    /// Longest chains of one open, both layers together.
    pub longest_open: usize,
    /// Stops of the host looked at.
    pub stops: usize,
}

impl fmt::Display for Summary {
    fn fmt(&self, f: &mut fmt::Formatter<'_>) -> fmt::Result {
        writeln!(
            f,
            "{} requests in {} runs, {} of them from random sound books: all as it must be",
            self.steps, self.runs, self.from_books
        )?;
        write!(f, "accepted {}; refused", self.accepted)?;
        for (number, count) in self.answers.iter().enumerate().skip(1) {
            if *count > 0 {
                write!(f, " {number}: {count};")?;
            }
        }
        writeln!(f)?;
        let [accepted, refused] = self.leaves;
        writeln!(f, "leaves accepted {accepted}, refused {refused}")?;
        write!(
            f,
            "most orders of one request {}, longest open {} rows, {} stops of the host",
            self.most_orders, self.longest_open, self.stops
        )
    }
}

/// A step that was not as it must be.
#[derive(Clone, Debug, PartialEq, Eq)]
pub struct Failure {
    /// The seed of the check.
    pub seed: u64,
    /// The run.
    pub run: usize,
    /// The step in the run, from 0.
    pub step: usize,
    /// What was wrong.
    pub text: String,
    /// The mode.
    pub mode: &'static str,
    /// The book the run started from, in hexadecimal; empty if it was the
    /// empty one.
    pub start: String,
    /// The smallest script found that fails.
    pub script: Vec<Request>,
}

impl fmt::Display for Failure {
    fn fmt(&self, f: &mut fmt::Formatter<'_>) -> fmt::Result {
        writeln!(
            f,
            "seed {}, run {}, step {}: {}",
            self.seed, self.run, self.step, self.text
        )?;
        if !self.start.is_empty() {
            writeln!(f, "from the book {}", self.start)?;
        }
        writeln!(f, "the smallest script found:")?;
        write!(f, "{}", self.mode)?;
        for request in &self.script {
            write!(f, "\n{request}")?;
        }
        Ok(())
    }
}

/// Makes about so many requests in random worlds and verifies every step.
pub fn run(seed: u64, steps: usize) -> Result<Summary, Box<Failure>> {
    let mut random = Random::new(seed);
    let mut summary = Summary::default();
    while summary.steps < steps {
        let start = random_start(&mut random, summary.runs);
        let length = random.between(20, if start.small { 200 } else { 60 }) + start.first_users;
        let length = length.min(steps - summary.steps);
        summary.from_books += usize::from(start.book.users > 0);
        run_from(seed, &mut random, &start, length, &mut summary)?;
        summary.runs += 1;
    }
    Ok(summary)
}

fn random_start(random: &mut Random, run: usize) -> Start {
    // Both modes in turn, also among the starts of one kind.
    let mode = [Mode::Delta, Mode::Full][(run + run / 16) % 2];
    let (book, small) = match run % 16 {
        0..=6 => (Book::empty(mode), true),
        7 => (Book::empty(mode), false),
        8..=13 => {
            let shape = Shape::small(random);
            (generate::book(random, &shape), true)
        }
        14 => {
            let shape = Shape::wide(random);
            (generate::book(random, &shape), false)
        }
        _ => {
            let shape = Shape::full(random);
            (generate::book(random, &shape), false)
        }
    };
    let most_users = if small { random.between(3, 6) } else { 64 };
    let first_users = if small { 0 } else { random.between(8, 64) };
    Start {
        book,
        first_users,
        most_users,
        small,
    }
}

fn run_from(
    seed: u64,
    random: &mut Random,
    start: &Start,
    length: usize,
    summary: &mut Summary,
) -> Result<(), Box<Failure>> {
    let mut script = Vec::new();
    let fail = |step: usize, text: String, script: &[Request], run: usize| {
        Box::new(Failure {
            seed,
            run,
            step,
            text,
            mode: Mode::of(start.book.mode).map_or("?", Mode::word),
            start: if start.book.users == 0 {
                String::new()
            } else {
                let bytes = bytes::write(&start.book);
                bytes.iter().map(|byte| format!("{byte:02x}")).collect()
            },
            script: smallest(
                script,
                start.book.users,
                start.book.resources.len() as u16,
                |script| fails(start, script),
            ),
        })
    };
    let mut world = World::of(start.book.clone())
        .and_then(|world| check_book(world.book(), &world.host, Care::All).map(|()| world))
        .map_err(|text| fail(0, text, &[], summary.runs))?;
    for step in 0..length {
        // A wide world first fills with people.
        let request = if usize::from(world.book().users) < start.first_users {
            Request::Join
        } else {
            generate::request(random, world.book(), start.most_users)
        };
        script.push(request);
        let care = if start.small {
            Care::All
        } else {
            Care::Some(random.next())
        };
        count(&world, &request, care, summary);
        world
            .step(&request, care)
            .map_err(|text| fail(step, text, &script, summary.runs))?;
        summary.steps += 1;
    }
    Ok(())
}

/// Notes in the summary what the request will answer.
fn count(world: &World, request: &Request, care: Care, summary: &mut Summary) {
    let result = world.book.clone().answer(request, usize::MAX);
    if let Request::Leave(_) = request {
        summary.leaves[usize::from(result.is_err())] += 1;
    }
    match result {
        Ok(answer) => {
            summary.accepted += 1;
            summary.answers[0] += 1;
            match &answer {
                Answer::Orders(orders) => {
                    summary.most_orders = summary.most_orders.max(orders.len());
                    summary.stops += stops(orders.len(), care).count();
                }
                Answer::Chains(chains) => {
                    summary.longest_open = summary.longest_open.max(chains.count());
                }
            }
        }
        Err(no) => summary.answers[usize::from(no.number)] += 1,
    }
}

/// Whether the script fails somewhere from that start.
fn fails(start: &Start, script: &[Request]) -> bool {
    let Ok(mut world) = World::of(start.book.clone()) else {
        return true;
    };
    script
        .iter()
        .any(|request| world.step(request, Care::All).is_err())
}

/// The smallest script found that still fails: parts are left out, long ones
/// first, as long as that succeeds; then single joins and inserts, with the
/// numbers of those after them moved up. The run starts with so many users
/// and resources.
pub fn smallest(
    script: &[Request],
    users: u16,
    resources: u16,
    fails: impl Fn(&[Request]) -> bool,
) -> Vec<Request> {
    let mut script = script.to_vec();
    if !fails(&script) {
        return script;
    }
    let mut part = script.len().div_ceil(2);
    while part > 0 {
        let mut shorter = false;
        let mut at = 0;
        while at < script.len() {
            let mut without = script.clone();
            without.drain(at..(at + part).min(script.len()));
            if fails(&without) {
                script = without;
                shorter = true;
            } else {
                at += part;
            }
        }
        if part == 1 {
            for at in (0..script.len()).rev() {
                let without = moved_up(&script, at, users, resources);
                if fails(&without) {
                    script = without;
                    shorter = true;
                }
            }
        }
        if !shorter || part > 1 {
            part /= 2;
        }
    }
    script
}

/// The script without the request at that place; if that was a join or an
/// insert, taken to be accepted like those before it, with the numbers above
/// the one it would have given moved up.
fn moved_up(script: &[Request], at: usize, users: u16, resources: u16) -> Vec<Request> {
    let (before, rest) = script.split_at(at);
    let Some((gone, after)) = rest.split_first() else {
        return script.to_vec();
    };
    let earlier = |like: fn(&Request) -> bool| before.iter().filter(|r| like(r)).count() as u16;
    let joins = earlier(|request| *request == Request::Join);
    let inserts = earlier(|request| matches!(request, Request::Insert(_)));
    let user = (*gone == Request::Join).then_some(users.saturating_add(joins));
    let resource = matches!(gone, Request::Insert(_)).then_some(resources.saturating_add(inserts));
    let up = |number: u16, gone: Option<u16>| number - u16::from(gone.is_some_and(|g| number > g));
    let u = |number: User| User(up(number.0, user));
    let r = |number: Resource| Resource(up(number.0, resource));
    let moved = after.iter().map(|request| match *request {
        Request::Join => Request::Join,
        Request::Insert(list) => Request::Insert(List {
            set: list
                .set
                .users()
                .filter(|one| Some(one.0) != user)
                .map(u)
                .collect(),
            beyond: list.beyond,
        }),
        Request::Grant(a, b) => Request::Grant(r(a), u(b)),
        Request::Revoke(a, b) => Request::Revoke(r(a), u(b)),
        Request::Leave(a) => Request::Leave(u(a)),
        Request::Open(a, b) => Request::Open(u(a), r(b)),
    });
    before.iter().copied().chain(moved).collect()
}

#[cfg(test)]
mod tests {
    use super::*;

    fn small_world() -> World {
        let mut world = World::of(Book::empty(Mode::Delta)).unwrap();
        for request in [
            Request::Join,
            Request::Join,
            Request::Join,
            Request::Insert(List::from(UserSet(3))),
            Request::Insert(List::from(UserSet(3))),
            Request::Grant(Resource(0), User(2)),
            Request::Revoke(Resource(0), User(1)),
        ] {
            world.step(&request, Care::All).unwrap();
        }
        world
    }

    #[test]
    fn a_wrong_book_or_host_is_noticed() {
        let world = small_world();
        let book = world.book();
        assert_eq!(check_book(book, &world.host, Care::All), Ok(()));

        let mut other = book.clone();
        other.outer_tokens.swap(0, 1);
        assert!(check_book(&other, &world.host, Care::All).is_err());

        let mut other = book.clone();
        other.resources[1].outer = None;
        assert!(check_book(&other, &world.host, Care::All).is_err());

        // A host that missed an order.
        let mut missed = world.clone();
        let request = Request::Revoke(Resource(1), User(1));
        let orders = missed
            .book
            .revoke(Resource(1), User(1), usize::MAX)
            .unwrap();
        let mut task = Task::of(book, &request, &orders);
        task.rows.pop();
        missed.host.execute(&task).unwrap();
        assert!(check_book(missed.book(), &missed.host, Care::All).is_err());
    }

    #[test]
    fn a_chain_that_leads_elsewhere_is_noticed() {
        let world = small_world();
        let r = Resource(1);
        let chains = world.book.open(User(0), r, 9).unwrap();
        let book = world.book();
        assert_eq!(follow_chains(book, User(0), r, &chains), Some(()));
        for (inner, outer) in [
            (vec![], chains.outer.clone()),
            (chains.inner.clone(), vec![]),
            (vec![1], chains.outer.clone()),
            (chains.inner.clone(), vec![2]),
            (vec![99], chains.outer.clone()),
        ] {
            let chains = Chains { inner, outer };
            assert_eq!(follow_chains(book, User(0), r, &chains), None);
        }
    }

    #[test]
    fn circles_are_found() {
        assert!(no_circle(3, vec![(0, 1), (1, 2), (0, 2)]));
        assert!(!no_circle(3, vec![(0, 1), (1, 2), (2, 1)]));
        assert!(!no_circle(1, vec![(0, 0)]));
        assert!(no_circle(0, vec![]));
    }

    #[test]
    fn the_smallest_script() {
        // Fails if a join is followed, at any distance, by an open.
        let fails = |script: &[Request]| {
            let join = script.iter().position(|r| *r == Request::Join);
            let open = script.iter().rposition(|r| matches!(r, Request::Open(..)));
            matches!((join, open), (Some(j), Some(o)) if j < o)
        };
        let open = Request::Open(User(0), Resource(0));
        let grant = Request::Grant(Resource(0), User(0));
        let script = [
            grant,
            Request::Join,
            grant,
            Request::Join,
            grant,
            grant,
            open,
            open,
            grant,
        ];
        assert_eq!(smallest(&script, 0, 0, fails), [Request::Join, open]);
        assert_eq!(smallest(&[grant], 0, 0, fails), [grant]);

        // Fails if the last resource inserted is granted to the last joiner.
        let fails = |script: &[Request]| {
            let count = |like: fn(&Request) -> bool| script.iter().filter(|r| like(r)).count();
            let joins = count(|request| *request == Request::Join);
            let inserts = count(|request| matches!(request, Request::Insert(_)));
            script.iter().any(|request| match request {
                Request::Grant(r, u) => r.index() + 1 == inserts && u.index() + 1 == joins,
                _ => false,
            })
        };
        let insert = |set: u64| Request::Insert(List::from(UserSet(set)));
        let script = [
            Request::Join,
            Request::Join,
            insert(1),
            insert(3),
            Request::Join,
            insert(6),
            Request::Grant(Resource(2), User(2)),
        ];
        let expected = [
            Request::Join,
            insert(1),
            Request::Grant(Resource(0), User(0)),
        ];
        assert_eq!(smallest(&script, 0, 0, fails), expected);
    }

    #[test]
    fn a_failure_shows_seed_step_and_script() {
        let failure = Failure {
            seed: 4,
            run: 2,
            step: 7,
            text: "it broke".into(),
            mode: "delta",
            start: String::new(),
            script: vec![Request::Join, Request::Insert(List::from(UserSet(1)))],
        };
        assert_eq!(
            failure.to_string(),
            "seed 4, run 2, step 7: it broke\nthe smallest script found:\ndelta\njoin\ninsert 0"
        );
    }
}
