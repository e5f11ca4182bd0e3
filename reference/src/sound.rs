//! A sound book: the rules S1 to S8, tried in order, and the first row that
//! breaks one.

use std::cell::OnceCell;

use crate::book::{
    Book, Head, InnerToken, Mode, OuterToken, ResourceRow, Section, KIND_ACCESS, KIND_DERIVATION,
    MAX_INNER_TOKENS, MAX_OUTER_GROUPS, MAX_OUTER_TOKENS, MAX_RESOURCES, MAX_USERS,
};
use crate::derive::InnerKnowers;
use crate::numbers::InnerVertex;
use crate::sets::UserSet;

/// A rule of the sound book.
#[derive(Clone, Copy, Debug, PartialEq, Eq, PartialOrd, Ord, Hash)]
pub enum Rule {
    /// Mode, kinds, counts, vertex numbers and sets are possible ones; no
    /// list names a leaver.
    S1,
    /// Every joined user has an own vertex, which no token to a key that
    /// derives enters; only the outer layer holds an empty set.
    S2,
    /// No two vertices of a layer have equal sets.
    S3,
    /// Tokens lead from a non-empty set to a strictly larger one around it.
    S4,
    /// A group's set is the union of the sets its tokens come from.
    S5,
    /// Kind 1 tokens go from an own vertex to a set without that user; no
    /// row occurs twice.
    S6,
    /// A list lies within the holders.
    S7,
    /// The outer key is the one the mode asks for.
    S8,
}

impl Rule {
    /// All rules, in order.
    pub const ALL: [Rule; 8] = [
        Rule::S1,
        Rule::S2,
        Rule::S3,
        Rule::S4,
        Rule::S5,
        Rule::S6,
        Rule::S7,
        Rule::S8,
    ];

    /// Its number, 1 to 8.
    pub fn number(self) -> u8 {
        self as u8 + 1
    }
}

/// Where a rule is broken.
#[derive(Clone, Copy, Debug, PartialEq, Eq)]
pub enum At {
    /// In the set of leavers.
    Leavers,
    /// In that row of that section.
    Row(Section, usize),
    /// In no row: a joined user's own vertex is missing.
    Missing,
}

/// A rule that a book breaks, and where it does so first.
#[derive(Clone, Copy, Debug, PartialEq, Eq)]
pub struct Broken {
    /// The rule.
    pub rule: Rule,
    /// What breaks it first.
    pub at: At,
}

/// Whether the book is sound; else the first rule it breaks.
pub fn sound(book: &Book) -> Result<(), Rule> {
    if !possible(&book.head()) {
        return Err(Rule::S1);
    }
    match first_broken(book) {
        Some(broken) => Err(broken.rule),
        None => Ok(()),
    }
}

/// The first rule that the leavers and the rows of the book break, and where.
/// Mode and counts are judged before.
pub fn first_broken(book: &Book) -> Option<Broken> {
    let judge = Judge::of(book);
    Rule::ALL.into_iter().find_map(|rule| judge.first(rule))
}

/// Every rule the book breaks, each judged for itself. Where S1 is broken the
/// others mean nothing and are not judged.
pub fn broken_rules(book: &Book) -> Vec<Rule> {
    let judge = Judge::of(book);
    if !possible(&book.head()) || judge.first(Rule::S1).is_some() {
        return vec![Rule::S1];
    }
    let mut rules = Rule::ALL.to_vec();
    rules.retain(|&rule| judge.first(rule).is_some());
    rules
}

/// A count of a head and its limit.
#[derive(Clone, Copy, Debug, PartialEq, Eq)]
pub struct Limited {
    /// What is counted.
    pub name: &'static str,
    /// How many there are.
    pub count: usize,
    /// How many there may be.
    pub most: usize,
}

/// The counts of a head with their limits, in the order of the header.
pub fn limited(head: &Head) -> [Limited; 6] {
    let [inner_vertices, inner_tokens, outer_vertices, outer_tokens, resources] = head.counts();
    let users = usize::from(head.users);
    [
        ("users", users, MAX_USERS),
        ("folders", resources, MAX_RESOURCES),
        ("inner vertices", inner_vertices, users + resources),
        ("inner tokens", inner_tokens, MAX_INNER_TOKENS),
        ("outer vertices", outer_vertices, users + MAX_OUTER_GROUPS),
        ("outer tokens", outer_tokens, MAX_OUTER_TOKENS),
    ]
    .map(|(name, count, most)| Limited { name, count, most })
}

/// The first count of a head that is over its limit, by its place in
/// [`limited`].
pub fn first_over(head: &Head) -> Option<usize> {
    limited(head)
        .iter()
        .position(|limited| limited.count > limited.most)
}

/// The part of S1 that a head alone decides: mode and counts.
pub fn possible(head: &Head) -> bool {
    Mode::of(head.mode).is_some() && first_over(head).is_none()
}

/// A book, and what the rules look at. Rules after S1 may only be judged of a
/// book that keeps S1, so that every number used is the number of a row.
struct Judge<'a> {
    book: &'a Book,
    inner: Layer<'a>,
    outer: Layer<'a>,
    /// Derived when first asked for.
    knowers: OnceCell<InnerKnowers>,
}

impl<'a> Judge<'a> {
    fn of(book: &'a Book) -> Judge<'a> {
        Judge {
            book,
            inner: Layer::inner(book),
            outer: Layer::outer(book),
            knowers: OnceCell::new(),
        }
    }

    fn holders(&self, vertex: InnerVertex) -> UserSet {
        let knowers = self.knowers.get_or_init(|| InnerKnowers::of(self.book));
        knowers.holders(vertex)
    }

    /// Where the rule is broken first: section by section, and row by row in
    /// each. The leavers and a missing vertex come before all rows.
    fn first(&self, rule: Rule) -> Option<Broken> {
        if rule == Rule::S1 && !self.book.leavers.within(self.book.joined()) {
            let at = At::Leavers;
            return Some(Broken { rule, at });
        }
        let missing = || self.inner.misses_an_own_vertex() || self.outer.misses_an_own_vertex();
        if rule == Rule::S2 && missing() {
            let at = At::Missing;
            return Some(Broken { rule, at });
        }
        Section::ALL.into_iter().find_map(|section| {
            let row = match section {
                Section::InnerVertices => self.inner.first_vertex(rule),
                Section::InnerTokens => self.inner.first_token(rule),
                Section::OuterVertices => self.outer.first_vertex(rule),
                Section::OuterTokens => self.outer.first_token(rule),
                Section::Resources => self.first_resource(rule),
            };
            let at = At::Row(section, row?);
            Some(Broken { rule, at })
        })
    }

    /// The first resource that breaks the rule.
    fn first_resource(&self, rule: Rule) -> Option<usize> {
        let breaks: &dyn Fn(&ResourceRow) -> bool = match rule {
            Rule::S1 => &|row| {
                !row.list.within(self.book.staying())
                    || !self.inner.has(row.inner.index())
                    || row
                        .outer
                        .is_some_and(|outer| !self.outer.has(outer.index()))
            },
            Rule::S7 => &|row| !row.list.within(self.holders(row.inner)),
            Rule::S8 => &|row| {
                let unlocked =
                    self.book.mode == Mode::Delta.number() && self.holders(row.inner) == row.list;
                match row.outer {
                    None => !unlocked,
                    Some(outer) => unlocked || self.outer.sets[outer.index()] != row.list,
                }
            },
            _ => return None,
        };
        self.book.resources.iter().position(breaks)
    }
}

/// A token of either layer; those of the outer layer have kind 0.
struct Token {
    from: u16,
    to: u16,
    kind: u8,
}

impl Token {
    /// Where it starts and where it leads.
    fn ends(&self) -> [usize; 2] {
        [self.from, self.to].map(usize::from)
    }

    /// Whether it gives a key from which more can be derived.
    fn is_step(&self) -> bool {
        self.kind == KIND_DERIVATION
    }
}

/// What both layers have: vertices with sets, and tokens between them.
struct Layer<'a> {
    joined: UserSet,
    sets: &'a [UserSet],
    tokens: Vec<Token>,
    /// Whether a set may be empty.
    may_be_empty: bool,
}

impl<'a> Layer<'a> {
    fn inner(book: &'a Book) -> Layer<'a> {
        let token = |token: &InnerToken| Token {
            from: token.from.0,
            to: token.to.0,
            kind: token.kind,
        };
        Layer {
            joined: book.joined(),
            sets: &book.inner_vertices,
            tokens: book.inner_tokens.iter().map(token).collect(),
            may_be_empty: false,
        }
    }

    fn outer(book: &'a Book) -> Layer<'a> {
        let token = |token: &OuterToken| Token {
            from: token.from.0,
            to: token.to.0,
            kind: KIND_DERIVATION,
        };
        Layer {
            joined: book.joined(),
            sets: &book.outer_vertices,
            tokens: book.outer_tokens.iter().map(token).collect(),
            may_be_empty: true,
        }
    }

    /// Whether there is a vertex with that number.
    fn has(&self, vertex: usize) -> bool {
        vertex < self.sets.len()
    }

    /// Whether somebody who has joined has no own vertex.
    fn misses_an_own_vertex(&self) -> bool {
        let alone = self.sets.iter().filter(|set| set.size() == 1);
        let owners = alone.fold(UserSet::EMPTY, |all, set| all.union(*set));
        !self.joined.within(owners)
    }

    /// The first vertex that breaks the rule.
    fn first_vertex(&self, rule: Rule) -> Option<usize> {
        let mut sets = self.sets.iter();
        match rule {
            Rule::S1 => sets.position(|set| !set.within(self.joined)),
            Rule::S2 => sets.position(|set| set.is_empty() && !self.may_be_empty),
            Rule::S3 => {
                // Rows with equal sets side by side, the earlier one first.
                let mut sorted: Vec<_> = sets.zip(0..).collect();
                sorted.sort_unstable();
                let equal = sorted.windows(2).filter(|pair| pair[0].0 == pair[1].0);
                equal.map(|pair| pair[1].1).min()
            }
            Rule::S5 => {
                let mut pairs = sets.zip(self.unions());
                pairs.position(|(set, union)| set.size() != 1 && *set != union)
            }
            _ => None,
        }
    }

    /// For each vertex, everyone in the sets that a step into it starts at.
    fn unions(&self) -> Vec<UserSet> {
        let mut unions = vec![UserSet::EMPTY; self.sets.len()];
        for step in self.tokens.iter().filter(|token| token.is_step()) {
            let [from, to] = step.ends();
            unions[to] = unions[to].union(self.sets[from]);
        }
        unions
    }

    /// The first token that breaks the rule.
    fn first_token(&self, rule: Rule) -> Option<usize> {
        let mut tokens = self.tokens.iter();
        let sets = |token: &Token| token.ends().map(|vertex| self.sets[vertex]);
        match rule {
            Rule::S1 => tokens.position(|token| {
                let [from, to] = token.ends();
                !(self.has(from) && self.has(to) && token.kind <= KIND_ACCESS)
            }),
            Rule::S2 => tokens.position(|token| {
                let [_, to] = sets(token);
                token.is_step() && to.only_user().is_some()
            }),
            Rule::S4 => tokens.position(|token| {
                let [from, to] = sets(token);
                token.is_step() && (from.is_empty() || !from.strictly_within(to))
            }),
            Rule::S6 => {
                let lets_in = |token: &Token| {
                    let [from, to] = sets(token);
                    from.only_user().is_some_and(|user| !to.names(user))
                };
                let mut before = Numbers::below(2 * self.sets.len() * self.sets.len());
                tokens.position(|token| {
                    let [from, to] = token.ends();
                    let row = (from * self.sets.len() + to) * 2 + usize::from(token.kind);
                    !before.insert(row) || (!token.is_step() && !lets_in(token))
                })
            }
            _ => None,
        }
    }
}

/// A set of numbers below some end.
struct Numbers(Vec<u64>);

impl Numbers {
    fn below(end: usize) -> Numbers {
        Numbers(vec![0; end.div_ceil(64)])
    }

    /// Adds a number; whether it was new.
    fn insert(&mut self, number: usize) -> bool {
        let (word, bit) = (&mut self.0[number / 64], 1 << (number % 64));
        let new = *word & bit == 0;
        *word |= bit;
        new
    }
}
