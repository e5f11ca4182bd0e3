//! A difference with its seed and smallest case, and the bounds of a run.

use std::fmt;
use std::time::{Duration, Instant};

use fenstubble_reference::generate::Random;

use crate::compare::{compare, Difference, Done, Tally};
use crate::memory::Lent;
use crate::shrink::Case;
use crate::side::Call;

/// How much to compare.
#[derive(Clone, Copy, Debug, PartialEq, Eq)]
pub struct Bounds {
    /// The seed of all cases.
    pub seed: u64,
    /// The number of the first case.
    pub first: u64,
    /// Byte strings or requests, about.
    pub count: usize,
    /// The most time for what comes after the fixed cases.
    pub time: Option<Duration>,
}

/// A call on which the two sides differ.
#[derive(Clone, Debug, PartialEq, Eq)]
pub struct Report {
    /// The program that makes these comparisons.
    pub family: &'static str,
    /// The seed.
    pub seed: u64,
    /// The case among those of the seed.
    pub case: u64,
    /// The call.
    pub call: String,
    /// What differs.
    pub text: String,
    /// The smallest case found, and what differs there.
    pub smallest: String,
}

impl fmt::Display for Report {
    fn fmt(&self, f: &mut fmt::Formatter<'_>) -> fmt::Result {
        writeln!(
            f,
            "the sides differ at {} (seed {}, case {}; again with {} --seed {} --first {} --count 1):",
            self.call, self.seed, self.case, self.family, self.seed, self.case
        )?;
        writeln!(f, "{}", self.text)?;
        writeln!(f, "the smallest case found:")?;
        write!(f, "{}", self.smallest)
    }
}

/// The generator of one case. Each has its own, so that it can be made again
/// without those before it.
pub fn random_of(seed: u64, case: u64) -> Random {
    let seed = Random::new(seed).next();
    let case = Random::new(!case).next();
    Random::new(seed ^ case.rotate_left(32))
}

/// A run of comparisons.
#[derive(Debug)]
pub struct Session {
    family: &'static str,
    bounds: Bounds,
    since: Instant,
    /// The case at hand.
    pub case: u64,
    /// What was answered so far.
    pub tally: Tally,
}

impl Session {
    /// Starts one.
    pub fn new(family: &'static str, bounds: Bounds) -> Session {
        Session {
            family,
            bounds,
            since: Instant::now(),
            case: bounds.first,
            tally: Tally::default(),
        }
    }

    /// Whether the time is over.
    pub fn over(&self) -> bool {
        self.bounds
            .time
            .is_some_and(|time| self.since.elapsed() > time)
    }

    /// Makes the call on both sides; a difference is reported with the
    /// smallest case found.
    pub fn compare(&mut self, call: Call, lent: &Lent) -> Result<Done, Box<Report>> {
        self.attempt(call, lent).map_err(|found| {
            let lent = lent.clone();
            let mut case = Case { call, lent };
            if case.differs(found.numbers) {
                case = case.smallest(found.numbers);
            }
            self.report(call, found, &case, String::new())
        })
    }

    /// Makes the call on both sides and counts it; a difference is told.
    pub fn attempt(&mut self, call: Call, lent: &Lent) -> Result<Done, Difference> {
        let done = compare(call, lent)?;
        self.tally.count(call, done.number());
        Ok(done)
    }

    /// The report of a difference; `before` is told before the smallest case.
    pub fn report(
        &self,
        call: Call,
        found: Difference,
        smallest: &Case,
        before: String,
    ) -> Box<Report> {
        let again = match smallest.difference() {
            Some(again) => again.text,
            None => "made again, it does not differ: something was kept from calls before\n".into(),
        };
        Box::new(Report {
            family: self.family,
            seed: self.bounds.seed,
            case: self.case,
            call: call.to_string(),
            text: found.text,
            smallest: format!("{before}{smallest}{again}"),
        })
    }
}
