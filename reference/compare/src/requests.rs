//! Join, insert, grant, revoke, leave, view and open: runs of requests in which
//! both sides go on from the same state, and single ones on tables that are no
//! sound book; and several requests in one call.

use std::fmt;

use fenstubble_reference::book::{Book, Head, Mode, SoundBook, MAX_OUTER_GROUPS, MAX_OUTER_TOKENS};
use fenstubble_reference::bytes::{LIMITS, WIDTHS};
use fenstubble_reference::check::smallest;
use fenstubble_reference::generate::{self, Random, Shape};
use fenstubble_reference::numbers::{Resource, User};
use fenstubble_reference::requests::{List, Request};
use fenstubble_reference::sets::UserSet;

use crate::books::{left, longer, resize, sample, shorter, some_book};
use crate::compare::{Difference, Done, Tally};
use crate::limits::{self, of_size, Counts};
use crate::locks::Locks;
use crate::memory::{Filler, Lent, Memory};
use crate::report::{random_of, Bounds, Report, Session};
use crate::shrink::Case;
use crate::side::{Call, Given, MOST_ORDERS, SET};
use crate::worlds::{filled_listed, large, listed, most_listed, LARGEST, LEAVER, NEARLY};

/// What was compared.
#[derive(Clone, Debug, Default)]
pub struct Summary {
    /// Runs and single requests, each on tables of its own.
    pub worlds: usize,
    /// The requests and their answers.
    pub tally: Tally,
    /// Most orders of one request.
    pub most_orders: u16,
    /// Answers that lock something first.
    pub locks: Locks,
    /// Longest chains of one open, inner and outer.
    pub longest: [u16; 2],
    /// Requests that were served several in one call, by the number of the
    /// refusal, 0 if there was none.
    pub served: [usize; 16],
    /// Leaves among them that were accepted, and that were refused.
    pub served_leaves: [usize; 2],
}

impl Summary {
    /// Leaves that were accepted, and that were refused, by themselves and
    /// among several requests.
    pub fn leaves(&self) -> [usize; 2] {
        let [accepted, refused] = self.tally.accepted_of("leave");
        [
            accepted + self.served_leaves[0],
            refused + self.served_leaves[1],
        ]
    }
}

impl fmt::Display for Summary {
    fn fmt(&self, f: &mut fmt::Formatter<'_>) -> fmt::Result {
        writeln!(
            f,
            "{} requests in {} worlds: no difference",
            self.tally.calls(),
            self.worlds
        )?;
        write!(f, "{}", self.tally)?;
        writeln!(
            f,
            "most orders of one request {}, longest chains {} inner and {} outer rows",
            self.most_orders, self.longest[0], self.longest[1]
        )?;
        writeln!(f, "{}", self.locks)?;
        let [accepted, refused] = self.leaves();
        let several = self.served_leaves;
        writeln!(
            f,
            "leaves accepted {accepted}, refused {refused} ({} and {} of them among several requests)",
            several[0], several[1]
        )?;
        if self.tally.calls_of("serve") > 0 {
            writeln!(f, "served in one call, by answer: {:?}", self.served)?;
        }
        Ok(())
    }
}

type Outcome = Result<(), Box<Report>>;

/// The cases that are the same for every seed, but for the lists lent and
/// the random requests at their ends.
const FIXED: [fn(&mut Requests, &mut Random) -> Outcome; 13] = [
    Requests::edges,
    Requests::other_lengths,
    Requests::users_full,
    Requests::resources_full,
    Requests::seven,
    Requests::eight,
    Requests::nine,
    Requests::around_the_limits,
    Requests::long_chains,
    Requests::many_neighbours,
    Requests::who_has_left,
    Requests::leaves_at_their_limits,
    Requests::long_leaves,
];

/// Compares about so many requests.
pub fn run(bounds: Bounds) -> Result<Summary, Box<Report>> {
    let mut requests = Requests {
        session: Session::new("requests", bounds),
        summary: Summary::default(),
    };
    for case in bounds.first.. {
        requests.session.case = case;
        let random = &mut random_of(bounds.seed, case);
        match FIXED.get(usize::try_from(case).unwrap_or(usize::MAX)) {
            Some(fixed) => fixed(&mut requests, random)?,
            None if requests.session.over() => break,
            None => requests.any_world(random)?,
        }
        if requests.session.tally.calls() >= bounds.count {
            break;
        }
    }
    Ok(Summary {
        tally: requests.session.tally,
        ..requests.summary
    })
}

/// A sound book, the same in lent tables, and how it came about.
struct World {
    start: Book,
    /// The accepted requests since.
    script: Vec<Request>,
    book: SoundBook,
    /// Head and tables.
    lent: Lent,
    filler: Filler,
}

/// Numbers at which a width or a limit ends.
const NUMBERS: [u16; 14] = [
    0, 1, 62, 63, 64, 65, 254, 255, 256, 257, 32767, 32768, 65534, 65535,
];

struct Requests {
    session: Session,
    summary: Summary,
}

impl Requests {
    /// A world that starts from a sound book.
    fn world(&mut self, random: &mut Random, book: SoundBook) -> World {
        self.summary.worlds += 1;
        let filler = Filler::any(random);
        let mut lent = Lent::of(book.book(), filler);
        if random.chance(1, 4) {
            longer(random, &mut lent);
        }
        World {
            start: book.book().clone(),
            script: Vec::new(),
            book,
            lent,
            filler,
        }
    }

    /// The call with a list of so many numbers; both sides go on from what it
    /// leaves.
    fn ask(&mut self, world: &mut World, call: Call, numbers: usize) -> Result<Done, Box<Report>> {
        world.lent.list = Memory::of(&world.filler.numbers(numbers));
        let done = self
            .session
            .attempt(call, &world.lent)
            .map_err(|found| self.shrunk(world, call, found))?;
        match done.answer {
            Ok(Given::Orders(rows)) => {
                self.summary.most_orders = self.summary.most_orders.max(rows);
                let (orders, _) = done.lent.list.content().as_chunks();
                let delta = world.book.mode() == Mode::Delta;
                self.summary
                    .locks
                    .count(delta, &orders[..usize::from(rows)]);
            }
            Ok(Given::Chains(inner, outer)) => {
                let [a, b] = self.summary.longest;
                self.summary.longest = [a.max(inner), b.max(outer)];
            }
            _ => {}
        }
        world.lent.clone_from(&done.lent);
        Ok(done)
    }

    /// The call with lists that are too short for its answer, sometimes, and
    /// then with one that is not; before an insert, sometimes, one with too few
    /// bytes.
    fn step(&mut self, world: &mut World, random: &mut Random, call: Call) -> Outcome {
        let Some(request) = request_of(call) else {
            return self.ask(world, call, 0).map(drop);
        };
        let mut after = world.book.clone();
        let row = if matches!(call, Call::Open(..)) { 1 } else { 3 };
        let answer = after.answer(&request, usize::MAX);
        let needed = answer.map_or(0, |answer| answer.count() * row);
        let mut call = call;
        if let Call::Insert(list, _) = call {
            if random.chance(1, 4) {
                self.ask(world, Call::Insert(list, random.below(SET)), needed)?;
            }
            call = Call::Insert(list, enough_bytes(random));
        }
        if needed > 0 && random.chance(1, 3) {
            let short = match random.below(4) {
                0 | 1 => needed - row,
                2 => needed - 1,
                _ => random.below(needed),
            };
            self.ask(world, call, short)?;
        }
        let more = match random.below(4) {
            0 | 1 => 0,
            2 => random.between(1, 9),
            _ => 400,
        };
        let done = self.ask(world, call, needed + more)?;
        if matches!(done.answer, Ok(Given::Orders(_))) {
            world.book = after;
            world.script.push(request);
        }
        Ok(())
    }

    /// So many random requests, in a world where no more than so many join.
    fn steps(
        &mut self,
        world: &mut World,
        random: &mut Random,
        count: usize,
        most_users: usize,
    ) -> Outcome {
        for _ in 0..count {
            let call = some_call(random, world.book.book(), most_users);
            self.step(world, random, call)?;
        }
        Ok(())
    }

    /// The report of a difference: from the empty book with as few requests
    /// before it as found, from any other start with the smallest book found.
    fn shrunk(&self, world: &World, call: Call, found: Difference) -> Box<Report> {
        let numbers = found.numbers;
        let lent = world.lent.clone();
        let case = Case { call, lent };
        let mut script = world.script.clone();
        script.push(carried(call));
        if !case.differs(numbers) {
            let before = told(&world.start, &script);
            return self.session.report(call, found, &case, before);
        }
        let at_end = |script: &[Request]| {
            let (last, before) = script.split_last()?;
            let mut book = SoundBook::new(world.start.clone()).ok()?;
            for request in before {
                // A refused one changes nothing.
                let _ = book.answer(request, usize::MAX);
            }
            Some(case.moved(like(call, last), book.book()))
        };
        let differs = |script: &[Request]| at_end(script).is_some_and(|case| case.differs(numbers));
        if world.start.users > 0 || !differs(&script) {
            let smallest = case.smallest(numbers);
            return self.session.report(call, found, &smallest, String::new());
        }
        let script = smallest(&script, 0, 0, differs);
        let smallest = at_end(&script).unwrap_or(case);
        let before = told(&world.start, &script);
        self.session.report(call, found, &smallest, before)
    }

    /// Numbers at their edges, in a small world and in one that has them all.
    fn edges(&mut self, random: &mut Random) -> Outcome {
        for mode in [Mode::Delta, Mode::Full] {
            let all = Counts {
                resources: 256,
                ..limits::SMALL
            };
            for book in [sample(mode), limits::book(mode, &all)] {
                let (users, resources) = (book.users, book.head().resources);
                let mut world = self.world(random, sound(book));
                for u in NUMBERS.into_iter().chain([users - 1, users]) {
                    for r in NUMBERS.into_iter().chain([resources - 1, resources]) {
                        for call in [
                            Call::View(u, r),
                            Call::Open(u, r),
                            Call::Grant(r, u),
                            Call::Revoke(r, u),
                            // Numbers in each other's place.
                            Call::Grant(u, r),
                            Call::Revoke(u, r),
                        ] {
                            self.step(&mut world, random, call)?;
                        }
                    }
                }
                for bit in 0..64 {
                    self.step(&mut world, random, Call::insert(1 << bit))?;
                    self.step(&mut world, random, Call::insert(1 << bit | 1))?;
                    self.step(&mut world, random, Call::insert(u64::MAX >> bit))?;
                }
                self.step(&mut world, random, Call::insert(0))?;
                for u in NUMBERS.into_iter().chain([users - 1, users]) {
                    self.step(&mut world, random, Call::Leave(u))?;
                    self.step(&mut world, random, Call::Leave(u))?;
                    for r in [0, resources - 1, resources] {
                        self.about(&mut world, random, r, u)?;
                    }
                    let bit = 1u64.checked_shl(u.into()).unwrap_or(0);
                    self.step(&mut world, random, Call::insert(bit | 4))?;
                }
            }
        }
        Ok(())
    }

    /// Heads, tables and sets that are too short, just long enough, and longer.
    fn other_lengths(&mut self, random: &mut Random) -> Outcome {
        for mode in [Mode::Delta, Mode::Full] {
            let clean = Lent::of(&left(sample(mode)), Filler::any(random));
            let mut all = Vec::new();
            for numbers in 0..Head::NUMBERS + 3 {
                let mut lent = clean.clone();
                let mut head = clean.head.content().to_vec();
                head.resize(numbers, 0x0101);
                lent.head = Memory::of(&head);
                all.push(lent);
            }
            for k in 0..5 {
                let most = LIMITS[k] * WIDTHS[k];
                for length in [0, most - WIDTHS[k], most - 1, most, most + 1] {
                    let mut lent = clean.clone();
                    resize(&mut lent.tables[k], length);
                    all.push(lent);
                }
            }
            self.summary.worlds += all.len();
            for mut lent in all {
                lent.list = Memory::of(&[0xB2B2; 30]);
                for length in (0..2 * SET).chain([4 * SET]) {
                    self.session.compare(Call::Insert(6, length), &lent)?;
                }
                for call in [
                    Call::Join,
                    Call::Grant(0, 1),
                    Call::Revoke(0, 0),
                    Call::Leave(0),
                    Call::View(2, 1),
                    Call::Open(0, 0),
                    Call::insert(0),
                    Call::Grant(99, 99),
                    Call::Revoke(99, 99),
                    Call::Leave(2),
                    Call::Leave(99),
                    Call::View(99, 99),
                    Call::Open(99, 99),
                ] {
                    self.session.compare(call, &lent)?;
                }
            }
        }
        Ok(())
    }

    /// 2: users to 64 and beyond.
    fn users_full(&mut self, random: &mut Random) -> Outcome {
        for mode in [Mode::Delta, Mode::Full] {
            let mut world = self.world(random, SoundBook::empty(mode));
            for _ in 0..66 {
                self.step(&mut world, random, Call::Join)?;
            }
            // 2 stands before 10.
            for numbers in [0, 3, 6] {
                self.ask(&mut world, Call::Join, numbers)?;
            }
            self.steps(&mut world, random, 60, 64)?;
        }
        Ok(())
    }

    /// 3: resources to 256 and beyond.
    fn resources_full(&mut self, random: &mut Random) -> Outcome {
        for mode in [Mode::Delta, Mode::Full] {
            let counts = Counts {
                users: 5,
                resources: 253,
                ..limits::SMALL
            };
            let mut world = self.world(random, sound(limits::book(mode, &counts)));
            for list in [1, 3, 31, 7, 1, 0, 32, 33, u64::MAX, 5] {
                self.step(&mut world, random, Call::insert(list))?;
            }
            for list in [0, 1, 6, 32] {
                self.ask(&mut world, Call::insert(list), 0)?;
            }
            self.steps(&mut world, random, 60, 6)?;
        }
        Ok(())
    }

    /// 7: one folder's list walks through sets that differ by one user, each
    /// a new outer vertex, until there are 448 groups.
    fn seven(&mut self, random: &mut Random) -> Outcome {
        for mode in [Mode::Delta, Mode::Full] {
            let mut book = joined(mode, 10);
            grow(&mut book, &Request::Insert(UserSet::first(10).into()));
            let gray = |n: u64| UserSet((n ^ (n >> 1)) ^ 0x3FF);
            let walk = |n: u64, back: bool| {
                let user = UserSet(gray(n).0 ^ gray(n + 1).0).users().next();
                let user = user.unwrap_or(User(0));
                if gray(n).names(user) != back {
                    Request::Revoke(Resource(0), user)
                } else {
                    Request::Grant(Resource(0), user)
                }
            };
            let mut n = 0;
            while book.book().outer_groups() < MAX_OUTER_GROUPS - 2 {
                grow(&mut book, &walk(n, false));
                n += 1;
            }
            let mut world = self.world(random, book);
            while world.book.book().outer_groups() < MAX_OUTER_GROUPS {
                self.step(&mut world, random, call_of(&walk(n, false)))?;
                n += 1;
            }
            // The next set is new; the one before is there.
            self.refused(&mut world, call_of(&walk(n, false)))?;
            self.step(&mut world, random, call_of(&walk(n - 1, true)))?;
            self.step(&mut world, random, Call::Join)?;
            self.refused(&mut world, Call::insert(1 << 10 | 1))?;
            self.step(&mut world, random, Call::insert(1 << 10))?;
            self.steps(&mut world, random, 60, 12)?;
        }
        Ok(())
    }

    /// 8: lists of 32 of 64 users, each entered by 32 tokens, then grants.
    fn eight(&mut self, random: &mut Random) -> Outcome {
        let mut book = joined(Mode::Delta, 64);
        for _ in 0..126 {
            let list = of_size(random, 32);
            grow(&mut book, &Request::Insert(list.into()));
        }
        // By inserts: 4064 tokens, 4096, and no more.
        let mut world = self.world(random, book.clone());
        for _ in 0..2 {
            let list = of_size(random, 32);
            self.step(&mut world, random, Call::insert(list.0))?;
        }
        for size in [2, 40] {
            let list = of_size(random, size);
            self.refused(&mut world, Call::insert(list.0))?;
        }
        let there = world.book.book().inner_vertices[100];
        self.step(&mut world, random, Call::insert(there.0))?;
        self.steps(&mut world, random, 12, 64)?;

        // By grants: to 4096, one token each.
        let list = of_size(random, 32);
        grow(&mut book, &Request::Insert(list.into()));
        let missing = UserSet::first(64).minus(book.book().resources[0].list);
        let mut world = self.world(random, book);
        for user in missing.users() {
            self.step(&mut world, random, Call::Grant(0, user.0))?;
        }
        let missing = UserSet::first(64).minus(world.book.book().resources[1].list);
        for user in missing.users().take(2) {
            self.refused(&mut world, Call::Grant(1, user.0))?;
        }
        self.steps(&mut world, random, 12, 64)
    }

    /// 9: the same lists in full mode, then a revoke that takes the last
    /// outer tokens.
    fn nine(&mut self, random: &mut Random) -> Outcome {
        let mut book = joined(Mode::Full, 64);
        for _ in 0..126 {
            let list = of_size(random, 32);
            grow(&mut book, &Request::Insert(list.into()));
        }
        let mut world = self.world(random, book);
        let list = of_size(random, 33);
        self.step(&mut world, random, Call::insert(list.0))?;
        let listed = |world: &World, r: usize| world.book.book().resources[r].list;
        let first = |set: UserSet| set.users().next().map_or(0, |user| user.0);
        let user = first(listed(&world, 0));
        self.step(&mut world, random, Call::Revoke(0, user))?;
        let user = first(listed(&world, 1));
        self.refused(&mut world, Call::Revoke(1, user))?;
        let outside = first(UserSet::first(64).minus(listed(&world, 1)));
        self.refused(&mut world, Call::Grant(1, outside))?;
        for size in [2, 33] {
            let list = of_size(random, size);
            self.refused(&mut world, Call::insert(list.0))?;
        }
        let there = listed(&world, 5);
        self.step(&mut world, random, Call::insert(there.0))?;
        self.step(&mut world, random, Call::insert(8))?;
        let last = world.book.book().head().resources - 1;
        self.step(&mut world, random, Call::Revoke(last, 3))?;
        self.steps(&mut world, random, 12, 64)
    }

    /// Books with each count at its limit or one below, and all at once, so
    /// that one request passes several limits.
    fn around_the_limits(&mut self, random: &mut Random) -> Outcome {
        for mode in [Mode::Delta, Mode::Full] {
            for (counts, within) in limits::around() {
                if !within {
                    continue;
                }
                let mut world = self.world(random, sound(limits::book(mode, &counts)));
                for size in [40, 2] {
                    let list = of_size(random, size).common(world.book.book().joined());
                    self.step(&mut world, random, Call::insert(list.0))?;
                }
                for _ in 0..2 {
                    let user = random.below(64) as u16;
                    self.step(&mut world, random, Call::Grant(0, user))?;
                }
                self.steps(&mut world, random, 6, 64)?;
            }
        }
        for size in [LARGEST, NEARLY] {
            let mut world = self.world(random, large(&size).book);
            self.steps(&mut world, random, 40, 64)?;
        }
        Ok(())
    }

    /// Lists {0,1}, {0,1,2}, ..: user 0 opens the last by 63 rows in each
    /// layer.
    fn long_chains(&mut self, random: &mut Random) -> Outcome {
        let mut world = self.world(random, joined(Mode::Full, 64));
        for count in 2..=64 {
            self.step(&mut world, random, Call::insert(UserSet::first(count).0))?;
        }
        for user in 0..64 {
            self.step(&mut world, random, Call::Open(user, 62))?;
            self.step(&mut world, random, Call::Open(user, user))?;
        }
        for numbers in [0, 63, 125, 126, 127] {
            self.ask(&mut world, Call::Open(0, 62), numbers)?;
        }
        // 11 stands before 10.
        self.ask(&mut world, Call::Open(63, 0), 0).map(drop)
    }

    /// 255 folders that share an inner vertex with the one granted.
    fn many_neighbours(&mut self, random: &mut Random) -> Outcome {
        let mut book = joined(Mode::Delta, 64);
        for _ in 0..256 {
            grow(&mut book, &Request::Insert(UserSet::first(63).into()));
        }
        // The same, with the one granted already the first user's alone: the
        // most orders that are known of.
        let mut one_less = book.book().clone();
        one_less.resources[255].list = UserSet::first(1);
        one_less.resources[255].outer = one_less.own_outer_vertex(User(0));
        for (book, rows) in [(book, 320), (sound(one_less), 324)] {
            let mut world = self.world(random, book);
            for numbers in [0, 3 * (rows - 1), 3 * rows - 1] {
                self.ask(&mut world, Call::Grant(255, 63), numbers)?;
            }
            for r in [255, 0, 1, 254] {
                self.step(&mut world, random, Call::Grant(r, 63))?;
            }
            self.steps(&mut world, random, 40, 64)?;
        }
        Ok(())
    }

    /// What can be asked about a folder and a user.
    fn about(&mut self, world: &mut World, random: &mut Random, r: u16, u: u16) -> Outcome {
        for call in [
            Call::View(u, r),
            Call::Open(u, r),
            Call::Revoke(r, u),
            Call::Grant(r, u),
        ] {
            self.step(world, random, call)?;
        }
        Ok(())
    }

    /// 15 and the numbers around it: 1 comes before, all others behind. Where
    /// there are 256 folders, where there are fewer, and where all is full.
    fn who_has_left(&mut self, random: &mut Random) -> Outcome {
        for mode in [Mode::Delta, Mode::Full] {
            for resources in [250, 256] {
                let counts = Counts {
                    users: 6,
                    resources,
                    ..limits::SMALL
                };
                let mut world = self.world(random, sound(limits::book(mode, &counts)));
                for user in [0, 5, 5, 6, 64, 65535] {
                    self.leave(&mut world, random, user)?;
                }
                for u in [0, 1, 5, 6, 63, 64, 65535] {
                    for r in [0, 1, 5, 249, 250, 255, 256, 65535] {
                        self.about(&mut world, random, r, u)?;
                        // Without room, and without a list.
                        self.ask(&mut world, Call::Grant(r, u), 0)?;
                    }
                }
                for list in 0..128 {
                    // Every set of those there, and of one who is not.
                    self.ask(&mut world, Call::insert(list), 0)?;
                    self.ask(&mut world, Call::insert(list | 1 << 63), 0)?;
                    self.step(&mut world, random, Call::insert(list))?;
                }
                // A leaver's number is not used again.
                self.step(&mut world, random, Call::Join)?;
                self.step(&mut world, random, Call::insert(1 << 6))?;
                self.steps(&mut world, random, 40, 8)?;
            }
            // Every table is full; the last user has left.
            let mut book = limits::book(mode, &limits::LARGEST);
            let own = book.resources[0];
            for row in &mut book.resources {
                if row.list.names(User(63)) {
                    *row = own;
                }
            }
            book.leavers = UserSet::alone(User(63));
            let mut world = self.world(random, sound(book));
            for list in [1 << 63, 1 << 63 | 1, u64::MAX, 1] {
                self.refused(&mut world, Call::insert(list))?;
            }
            for r in [0, 1, 255, 256] {
                self.refused(&mut world, Call::Grant(r, 63))?;
                self.refused(&mut world, Call::Grant(r, 62))?;
                self.about(&mut world, random, r, 63)?;
            }
            self.leave(&mut world, random, 63)?;
            // Emptied lists need one vertex more than there may be.
            self.leave(&mut world, random, 62)?;
            self.refused(&mut world, Call::Join)?;
        }
        // 64 users, of whom half leave: nobody joins in their place.
        let mut world = self.world(random, joined(Mode::Delta, 64));
        for user in 0..32 {
            self.leave(&mut world, random, user * 2)?;
        }
        self.refused(&mut world, Call::Join)?;
        self.steps(&mut world, random, 60, 64)
    }

    /// The leave with no order rows, with one too few, with one number too few,
    /// and with enough; then once more.
    fn leave(&mut self, world: &mut World, random: &mut Random, user: u16) -> Outcome {
        let call = Call::Leave(user);
        let answer = world.book.clone().answer(&carried(call), usize::MAX);
        match answer {
            Ok(answer) if answer.count() > 0 => {
                let needed = 3 * answer.count();
                for numbers in [0, needed - 3, needed - 1] {
                    self.ask(world, call, numbers)?;
                }
            }
            Ok(_) => {}
            Err(_) => self.refused(world, call)?,
        }
        self.step(world, random, call)?;
        self.step(world, random, call)
    }

    /// 7, 9 and 10 of a leave: it needs exactly as many outer vertices and
    /// tokens as there may be, or more; so it shows that they are judged on all
    /// of its folders together. The last time an earlier folder meets 9 than 7.
    fn leaves_at_their_limits(&mut self, random: &mut Random) -> Outcome {
        for mode in [Mode::Delta, Mode::Full] {
            for (users, folders) in [(12, 40), (64, 30), (10, 1), (9, 256)] {
                let all = UserSet::first(users);
                let leaver = User::at(random.below(usize::from(users)));
                let mut book = joined(mode, usize::from(users));
                for _ in 0..folders {
                    let other = generate::member(random, all.without(leaver));
                    let list = generate::subset(random, all).with(leaver);
                    let list = list.with(other.unwrap_or(leaver));
                    grow(&mut book, &Request::Insert(list.into()));
                }
                let mut after = book.clone();
                grow(&mut after, &Request::Leave(leaver));
                let (book, after) = (book.book(), after.book());
                let groups = MAX_OUTER_GROUPS + book.outer_groups() - after.outer_groups();
                let tokens = MAX_OUTER_TOKENS + book.outer_tokens.len() - after.outer_tokens.len();
                for (more_groups, more_tokens) in [(0, 0), (1, 0), (0, 1), (1, 1), (1, 30)] {
                    let groups = (groups + more_groups).min(MAX_OUTER_GROUPS);
                    let tokens = (tokens + more_tokens).min(MAX_OUTER_TOKENS);
                    let padded = generate::padded(random, book, leaver, groups, tokens);
                    let mut world = self.world(random, sound(padded));
                    let row = [5, leaver.0.into(), random.next()];
                    self.serve(&mut world.lent.clone(), &row, MOST_ORDERS)?;
                    self.leave(&mut world, random, leaver.0)?;
                    self.steps(&mut world, random, 8, 64)?;
                }
            }
        }
        Ok(())
    }

    /// A leave in a random book that no requests lead to, which needs about as
    /// many outer vertices or tokens as there may be.
    fn leave_near_a_limit(&mut self, random: &mut Random) -> Outcome {
        let shape = Shape {
            users: random.between(10, 64),
            resources: random.between(1, 60),
            ..Shape::wide(random)
        };
        let book = generate::book(random, &shape);
        let mut after = sound(book.clone());
        let Some(user) = generate::member(random, book.staying()) else {
            return Ok(());
        };
        if after.leave(user, usize::MAX).is_err() {
            return Ok(());
        }
        let after = after.book();
        let near = |random: &mut Random, left: usize, most: usize| match random.below(3) {
            0 => 0,
            _ => (left + random.between(0, 2)).saturating_sub(1).min(most),
        };
        let left = MAX_OUTER_GROUPS + book.outer_groups() - after.outer_groups();
        let groups = near(random, left, MAX_OUTER_GROUPS);
        let left = MAX_OUTER_TOKENS + book.outer_tokens.len() - after.outer_tokens.len();
        let tokens = near(random, left, MAX_OUTER_TOKENS);
        let padded = generate::padded(random, &book, user, groups, tokens);
        if padded.outer_tokens.len() > MAX_OUTER_TOKENS {
            return Ok(());
        }
        let mut world = self.world(random, sound(padded));
        self.leave(&mut world, random, user.0)?;
        self.steps(&mut world, random, 8, 64)
    }

    /// Leaves with as many orders as requests lead to, one that fills the outer
    /// vertices, and the longest of any book: 4,608 orders.
    fn long_leaves(&mut self, random: &mut Random) -> Outcome {
        for book in [listed().book, sound(filled_listed()), sound(most_listed())] {
            let mut world = self.world(random, book);
            self.leave(&mut world, random, LEAVER.0)?;
            self.steps(&mut world, random, 12, 64)?;
        }
        // By one call with a leave of everybody.
        for mode in [Mode::Delta, Mode::Full] {
            let book = limits::book(mode, &limits::SMALL);
            let mut lent = Lent::of(&book, Filler::any(random));
            let rows = (0..65).map(|user| [5, user, random.next()]);
            let rows: Vec<u64> = rows.collect::<Vec<_>>().concat();
            self.serve(&mut lent, &rows, MOST_ORDERS)?;
            self.serve(&mut lent, &rows, 1)?;
        }
        Ok(())
    }

    /// These request rows in one call, with an answer row for each and so many
    /// order rows.
    fn serve(&mut self, lent: &mut Lent, rows: &[u64], orders: usize) -> Outcome {
        lent.requests = Memory::of(rows);
        lent.answers = Memory::of(&vec![0xB2B2; rows.len()]);
        lent.list = Memory::of(&vec![0xB2B2; 3 * orders]);
        let done = self.session.compare(Call::Serve, lent)?;
        self.count_served(&done);
        Ok(())
    }

    /// Counts the answers of a serve.
    fn count_served(&mut self, done: &Done) {
        if done.answer.is_err() {
            return;
        }
        let rows = done.lent.requests.content().chunks_exact(3);
        for (row, answer) in rows.zip(done.lent.answers.content().chunks_exact(3)) {
            self.summary.served[usize::from(answer[0]).min(15)] += 1;
            if row[0] == 5 {
                self.summary.served_leaves[usize::from(answer[0] != 0)] += 1;
            }
        }
    }

    /// A call that mostly is refused, also with no list at all.
    fn refused(&mut self, world: &mut World, call: Call) -> Outcome {
        self.ask(world, call, 0).map(drop)?;
        // If it was 10, then with a list it would not be.
        let mut world = World {
            start: world.start.clone(),
            script: world.script.clone(),
            book: world.book.clone(),
            lent: world.lent.clone(),
            filler: world.filler,
        };
        self.ask(&mut world, call, 3 * MOST_ORDERS).map(drop)
    }

    /// A run in a random world, or single requests on bad tables.
    fn any_world(&mut self, random: &mut Random) -> Outcome {
        let mode = if random.chance(1, 2) {
            Mode::Delta
        } else {
            Mode::Full
        };
        if random.chance(1, 60) {
            return self.leave_near_a_limit(random);
        }
        match random.below(40) {
            0..=17 => {
                let mut world = self.world(random, SoundBook::empty(mode));
                let users = random.between(3, 6);
                let count = random.between(20, 150);
                self.steps(&mut world, random, count, users)
            }
            18..=29 => {
                let shape = Shape::small(random);
                let users = random.between(shape.users, 7);
                let book = generate::book(random, &shape);
                let mut world = self.world(random, sound(book));
                let count = random.between(10, 80);
                self.steps(&mut world, random, count, users)
            }
            30 => {
                let users = random.between(56, 64);
                let mut world = self.world(random, joined(mode, users));
                self.steps(&mut world, random, 60, 64)
            }
            31 => {
                let shape = Shape::wide(random);
                let book = generate::book(random, &shape);
                let mut world = self.world(random, sound(book));
                self.steps(&mut world, random, 24, 64)
            }
            32 => {
                let shape = Shape::full(random);
                let book = generate::book(random, &shape);
                let mut world = self.world(random, sound(book));
                self.steps(&mut world, random, 12, 64)
            }
            33..=36 => {
                let shape = Shape::small(random);
                let start = match random.below(3) {
                    0 => SoundBook::empty(mode),
                    1 => joined(mode, random.between(1, 64)),
                    _ => sound(generate::book(random, &shape)),
                };
                let mut world = self.world(random, start);
                (0..8).try_for_each(|_| self.several(&mut world, random))
            }
            _ => (0..10).try_for_each(|_| self.bad_tables(random)),
        }
    }

    /// Several requests in one call, with answer rows and order rows that
    /// are enough or not.
    fn several(&mut self, world: &mut World, random: &mut Random) -> Outcome {
        let count = random.below(16);
        let mut ahead = world.book.clone();
        let mut rows: Vec<u64> = Vec::new();
        let mut needed = 0;
        for _ in 0..count {
            let request = generate::request(random, ahead.book(), 64);
            let row = row_of(random, &request);
            if random.chance(1, 12) {
                rows.extend(odd_row(random, row));
                continue;
            }
            rows.extend(row);
            needed += ahead
                .answer(&request, usize::MAX)
                .map_or(0, |answer| answer.count());
        }
        // Numbers past the last whole row do not count.
        rows.extend((0..random.below(3)).map(|_| random.next()));
        let answers = match random.below(6) {
            0 => (3 * count).saturating_sub(1),
            1 => random.below(3 * count),
            2 => 3 * count + random.below(9),
            _ => 3 * count,
        };
        let list = match random.below(4) {
            0 => random.below(3 * needed),
            1 => 3 * needed + random.below(30),
            _ => 3 * needed,
        };
        world.lent.requests = Memory::of(&rows);
        world.lent.answers = Memory::of(&world.filler.numbers(answers));
        world.lent.list = Memory::of(&world.filler.numbers(list));
        let done = self.session.compare(Call::Serve, &world.lent)?;
        self.count_served(&done);
        if done.answer.is_ok() {
            world.lent.clone_from(&done.lent);
            world.book = sound(world.lent.book_in_tables().expect("rows for every count"));
        }
        Ok(())
    }

    /// Requests on tables that are too short or no sound book.
    fn bad_tables(&mut self, random: &mut Random) -> Outcome {
        self.summary.worlds += 1;
        let book = some_book(random);
        let filler = Filler::any(random);
        let lent = match random.below(5) {
            0 => {
                let mut lent = Lent::of(&book, filler);
                shorter(random, &mut lent);
                lent
            }
            1 => {
                let damaged = generate::damage(random, &book);
                let mut lent = Lent::of(&damaged, filler);
                if random.chance(1, 4) {
                    shorter(random, &mut lent);
                }
                lent
            }
            2 => {
                let mut lent = Lent::of(&book, filler);
                let k = random.below(5);
                let at = random.below(book.head().counts()[k] * WIDTHS[k]);
                lent.tables[k].lend()[at] ^= 1 << random.below(8);
                lent
            }
            3 => {
                let mut lent = Lent::of(&book, filler);
                let number = &mut lent.head.lend()[random.below(Head::NUMBERS)];
                *number = match random.below(4) {
                    0 => number.wrapping_add(1),
                    1 => number.wrapping_sub(1),
                    2 => number.wrapping_add(256),
                    _ => random.pick(&NUMBERS).unwrap_or(0),
                };
                lent
            }
            _ => Lent::of(&generate::damage(random, &book), filler),
        };
        for _ in 0..3 {
            let mut lent = lent.clone();
            let call = if random.chance(1, 6) {
                let row = odd_row(random, [4, 0, 0]);
                lent.requests = Memory::of(&[[0; 3], row].concat()[..random.below(7)]);
                lent.answers = Memory::of(&filler.numbers(random.below(9)));
                Call::Serve
            } else {
                match some_call(random, &book, 64) {
                    Call::Insert(list, _) => Call::Insert(list, random.below(2 * SET)),
                    call => call,
                }
            };
            let numbers = [0, 2, 3, 30, 1200][random.below(5)];
            lent.list = Memory::of(&filler.numbers(numbers));
            self.session.compare(call, &lent)?;
        }
        Ok(())
    }
}

/// A book that is known to be sound.
fn sound(book: Book) -> SoundBook {
    SoundBook::new(book).unwrap_or_else(|rule| panic!("a generated book breaks {rule:?}"))
}

/// A book in which so many have joined.
fn joined(mode: Mode, users: usize) -> SoundBook {
    let mut book = SoundBook::empty(mode);
    for _ in 0..users {
        grow(&mut book, &Request::Join);
    }
    book
}

/// Makes a request that is accepted, on the model alone.
fn grow(book: &mut SoundBook, request: &Request) {
    if let Err(no) = book.answer(request, usize::MAX) {
        panic!("a request that leads to a limit: {no}");
    }
}

/// A request as a row to serve; a place that does not count holds anything.
fn row_of(random: &mut Random, request: &Request) -> [u64; 3] {
    match *request {
        Request::Join => [0, random.next(), random.next()],
        Request::Insert(list) => {
            let beyond = [1, 1 << 16, 1 << 63][random.below(3)];
            [1, list.set.0, if list.beyond { beyond } else { 0 }]
        }
        Request::Grant(r, u) => [2, r.0.into(), u.0.into()],
        Request::Revoke(r, u) => [3, r.0.into(), u.0.into()],
        Request::Open(u, r) => [4, u.0.into(), r.0.into()],
        Request::Leave(u) => [5, u.0.into(), random.next()],
    }
}

/// The row with a number that does not exist: past the kinds, or one that
/// would wrap round to what was there.
fn odd_row(random: &mut Random, mut row: [u64; 3]) -> [u64; 3] {
    let more = [1 << 16, 1 << 32, 1 << 63, 6, u64::MAX][random.below(5)];
    // A join and an insert have no other number that can be wrong, a leave one.
    let place = match row[0] {
        0 | 1 => 0,
        5 => random.below(2),
        _ => random.below(3),
    };
    row[place] = row[place].saturating_add(more);
    row
}

/// As many bytes as a list is lent as, or more.
fn enough_bytes(random: &mut Random) -> usize {
    match random.below(3) {
        0 => random.between(SET + 1, 4 * SET),
        _ => SET,
    }
}

/// The call as a request; a view is none.
fn request_of(call: Call) -> Option<Request> {
    (!matches!(call, Call::View(..))).then(|| carried(call))
}

/// A request with the numbers of the call; for a view, an open.
fn carried(call: Call) -> Request {
    match call {
        Call::Insert(list, _) => Request::Insert(List::from(UserSet(list))),
        Call::Grant(r, u) => Request::Grant(Resource(r), User(u)),
        Call::Revoke(r, u) => Request::Revoke(Resource(r), User(u)),
        Call::Leave(u) => Request::Leave(User(u)),
        Call::Open(u, r) | Call::View(u, r) => Request::Open(User(u), Resource(r)),
        _ => Request::Join,
    }
}

/// The request as a call.
fn call_of(request: &Request) -> Call {
    match *request {
        Request::Join => Call::Join,
        // A set can not name a user above 63.
        Request::Insert(list) => Call::insert(list.set.0),
        Request::Grant(r, u) => Call::Grant(r.0, u.0),
        Request::Revoke(r, u) => Call::Revoke(r.0, u.0),
        Request::Leave(u) => Call::Leave(u.0),
        Request::Open(u, r) => Call::Open(u.0, r.0),
    }
}

/// The request as a call like that one: an open is a view again, if it was,
/// and a list is lent as as many bytes.
fn like(call: Call, request: &Request) -> Call {
    match (call, call_of(request)) {
        (Call::Insert(_, length), Call::Insert(list, _)) => Call::Insert(list, length),
        (Call::View(..), Call::Open(u, r)) => Call::View(u, r),
        (_, other) => other,
    }
}

/// The requests before the last, as a script of the request program.
fn told(start: &Book, script: &[Request]) -> String {
    let mode = Mode::of(start.mode).map_or("?", Mode::word);
    let from = if start.users == 0 {
        ""
    } else {
        " (not from the empty book)"
    };
    let before = script.split_last().map_or(&[][..], |(_, before)| before);
    let lines: String = before.iter().map(|line| format!("{line}\n")).collect();
    format!("after{from}\n{mode}\n{lines}the call\n")
}

/// A random call: mostly a request that is accepted, some views, some with
/// odd numbers.
fn some_call(random: &mut Random, book: &Book, most_users: usize) -> Call {
    match random.below(24) {
        0 => odd_call(random, book),
        1..=4 if book.users > 0 && !book.resources.is_empty() => {
            let u = random.below(usize::from(book.users)) as u16;
            let r = random.below(book.resources.len()) as u16;
            Call::View(u, r)
        }
        _ => call_of(&generate::request(random, book, most_users)),
    }
}

/// A call with numbers at some edge.
fn odd_call(random: &mut Random, book: &Book) -> Call {
    let users = usize::from(book.users);
    let number = |random: &mut Random, count: usize| match random.below(5) {
        0 => count as u16,
        1 => count.saturating_sub(1) as u16,
        2 => random.pick(&NUMBERS).unwrap_or(0),
        _ => random.below(count) as u16,
    };
    let u = number(random, users);
    let r = number(random, book.resources.len());
    match random.below(6) {
        0 => Call::Grant(r, u),
        1 => Call::Revoke(r, u),
        2 => Call::View(u, r),
        3 => Call::Open(u, r),
        4 => Call::Leave(u),
        _ => {
            let all = book.joined().0;
            let some = random.next() & all;
            let bit = 1u64.checked_shl(u32::from(u)).unwrap_or(0);
            Call::insert([0, all, some, some | bit, bit, 1 << 63, u64::MAX][random.below(7)])
        }
    }
}
