//! Books damaged at a chosen row: each kind of damage is aimed at one clause of
//! the rules in one layer, or at one thing that can be wrong with a header.

use fenstubble_reference::book::{
    Book, InnerToken, Mode, OuterToken, MAX_INNER_TOKENS, MAX_OUTER_GROUPS, MAX_OUTER_TOKENS,
    MAX_USERS,
};
use fenstubble_reference::bytes::{self, Version, COUNT_PLACES, HEAD_LENGTH, VERSION_PLACE};
use fenstubble_reference::derive::InnerKnowers;
use fenstubble_reference::generate::{self, member, subset, Random, Shape};
use fenstubble_reference::numbers::{InnerVertex, OuterVertex, User};
use fenstubble_reference::sets::UserSet;
use fenstubble_reference::sound::limited;

use crate::shrink::head_in;

/// Which of several rows.
#[derive(Clone, Copy, Debug, PartialEq, Eq)]
pub enum Which {
    /// The first one that can be damaged.
    First,
    /// One in the middle.
    Middle,
    /// The last one.
    Last,
    /// Any.
    Any,
}

impl Which {
    /// The first, one in the middle, and the last.
    pub const ENDS: [Which; 3] = [Which::First, Which::Middle, Which::Last];

    /// Any of all.
    pub fn some(random: &mut Random) -> Which {
        [Which::First, Which::Middle, Which::Last, Which::Any][random.below(4)]
    }

    /// That one of these.
    fn of(self, random: &mut Random, from: impl IntoIterator<Item = usize>) -> Option<usize> {
        let from: Vec<usize> = from.into_iter().collect();
        let last = from.len().checked_sub(1)?;
        let at = match self {
            Which::First => 0,
            Which::Middle => from.len() / 2,
            Which::Last => last,
            Which::Any => random.below(from.len()),
        };
        Some(from[at])
    }

    /// A place to insert a row at, among so many.
    fn gap(self, random: &mut Random, rows: usize) -> usize {
        self.of(random, 0..=rows).unwrap_or(rows)
    }
}

/// Damage to rows; none where there is no row for it.
type Rows = fn(&mut Random, &mut Book, Which) -> Option<()>;

/// Damage to a header or a length.
type Head = fn(&mut Random, &mut Vec<u8>);

/// What a kind of damage does.
#[derive(Clone, Copy, Debug)]
enum Does {
    Rows(Rows),
    Head(Head),
}

/// A kind of damage.
#[derive(Clone, Copy, Debug)]
pub struct Kind {
    /// The number it is aimed at: what it gives if nothing before it is wrong.
    pub number: u8,
    /// What it does.
    pub name: &'static str,
    does: Does,
}

const fn rows(number: u8, name: &'static str, does: Rows) -> Kind {
    Kind {
        number,
        name,
        does: Does::Rows(does),
    }
}

const fn head(number: u8, name: &'static str, does: Head) -> Kind {
    Kind {
        number,
        name,
        does: Does::Head(does),
    }
}

/// All kinds, by number.
pub const KINDS: [Kind; 53] = [
    head(20, "the mark", |random, bytes| {
        if let Some(byte) = bytes.get_mut(random.below(3)) {
            *byte ^= random.between(1, 255) as u8;
        }
    }),
    head(21, "the version", |random, bytes| {
        let more = random.between(3, 255) as u8;
        match bytes.get_mut(VERSION_PLACE..VERSION_PLACE + 2) {
            Some([low, _]) if random.chance(1, 2) => *low = more * u8::from(more < 254),
            Some([_, high]) => *high = more,
            _ => {}
        }
    }),
    head(22, "the mode", |random, bytes| {
        if let Some(byte) = bytes.get_mut(5) {
            *byte = random.between(2, 255) as u8;
        }
    }),
    head(23, "a count", |random, bytes| {
        let first = random.below(COUNT_PLACES.len());
        over(random, bytes, first);
    }),
    head(23, "several counts", |random, bytes| {
        for first in 0..COUNT_PLACES.len() {
            if random.chance(1, 2) {
                over(random, bytes, first);
            }
        }
    }),
    head(24, "less than a header", |random, bytes| {
        bytes.truncate(random.below(HEAD_LENGTH));
    }),
    head(24, "the other version", |_, bytes| {
        if let Some(low) = bytes.get_mut(VERSION_PLACE) {
            *low = 3 - (*low).clamp(1, 2);
        }
    }),
    head(24, "bytes missing", |random, bytes| {
        let gone = random.between(1, bytes.len().saturating_sub(HEAD_LENGTH).clamp(1, 20));
        bytes.truncate(bytes.len().saturating_sub(gone));
    }),
    head(24, "bytes too many", |random, bytes| {
        let more = random.between(1, 20);
        bytes.extend((0..more).map(|_| random.next() as u8));
    }),
    rows(31, "the leavers", |random, book, _| {
        book.leavers = with_stranger(random, book, book.leavers)?;
        Some(())
    }),
    rows(31, "a leaver on a list", |random, book, which| {
        let listed = |row: &usize| !book.resources[*row].list.is_empty();
        let row = which.of(random, (0..book.resources.len()).filter(listed))?;
        if random.chance(1, 2) {
            // All lists that name the same one break the rule.
            let user = member(random, book.resources[row].list)?;
            book.leavers = book.leavers.with(user);
        } else {
            let user = member(random, book.leavers)?;
            book.resources[row].list = book.resources[row].list.with(user);
        }
        Some(())
    }),
    rows(31, "inner set", |random, book, which| {
        let row = which.of(random, 0..book.inner_vertices.len())?;
        book.inner_vertices[row] = with_stranger(random, book, book.inner_vertices[row])?;
        Some(())
    }),
    rows(31, "inner token's kind", |random, book, which| {
        let row = which.of(random, 0..book.inner_tokens.len())?;
        book.inner_tokens[row].kind = random.between(2, 255) as u8;
        Some(())
    }),
    rows(31, "inner token's start", |random, book, which| {
        let row = which.of(random, 0..book.inner_tokens.len())?;
        book.inner_tokens[row].from.0 = nowhere(random, book.inner_vertices.len(), 65535);
        Some(())
    }),
    rows(31, "inner token's end", |random, book, which| {
        let row = which.of(random, 0..book.inner_tokens.len())?;
        book.inner_tokens[row].to.0 = nowhere(random, book.inner_vertices.len(), 65535);
        Some(())
    }),
    rows(31, "outer set", |random, book, which| {
        let row = which.of(random, 0..book.outer_vertices.len())?;
        book.outer_vertices[row] = with_stranger(random, book, book.outer_vertices[row])?;
        Some(())
    }),
    rows(31, "outer token's start", |random, book, which| {
        let row = which.of(random, 0..book.outer_tokens.len())?;
        book.outer_tokens[row].from.0 = nowhere(random, book.outer_vertices.len(), 65535);
        Some(())
    }),
    rows(31, "outer token's end", |random, book, which| {
        let row = which.of(random, 0..book.outer_tokens.len())?;
        book.outer_tokens[row].to.0 = nowhere(random, book.outer_vertices.len(), 65535);
        Some(())
    }),
    rows(31, "folder's list", |random, book, which| {
        let row = which.of(random, 0..book.resources.len())?;
        book.resources[row].list = with_stranger(random, book, book.resources[row].list)?;
        Some(())
    }),
    rows(31, "folder's inner vertex", |random, book, which| {
        let row = which.of(random, 0..book.resources.len())?;
        book.resources[row].inner.0 = nowhere(random, book.inner_vertices.len(), 65535);
        Some(())
    }),
    rows(31, "folder's outer vertex", |random, book, which| {
        let row = which.of(random, 0..book.resources.len())?;
        let outer = nowhere(random, book.outer_vertices.len(), 65534);
        book.resources[row].outer = Some(OuterVertex(outer));
        Some(())
    }),
    rows(32, "a user too many", |_, book, _| {
        let more = usize::from(book.users) < MAX_USERS;
        more.then(|| book.users += 1)
    }),
    rows(32, "inner own vertex missing", |random, book, which| {
        let row = which.of(random, owns(&book.inner_vertices))?;
        let other = member(random, book.joined().minus(book.inner_vertices[row]))?;
        book.inner_vertices[row] = book.inner_vertices[row].with(other);
        Some(())
    }),
    rows(32, "outer own vertex missing", |random, book, which| {
        let row = which.of(random, owns(&book.outer_vertices))?;
        book.outer_vertices[row] = match member(random, book.joined()) {
            Some(other) if other != book.outer_vertices[row].only_user()? => {
                book.outer_vertices[row].with(other)
            }
            _ => UserSet::EMPTY,
        };
        Some(())
    }),
    rows(32, "inner set empty", |random, book, which| {
        let row = which.of(random, groups(&book.inner_vertices))?;
        book.inner_vertices[row] = UserSet::EMPTY;
        Some(())
    }),
    rows(
        32,
        "inner token into an own vertex",
        |random, book, which| {
            let row = which.of(random, steps(book))?;
            let own = Which::Any.of(random, owns(&book.inner_vertices))?;
            book.inner_tokens[row].to = InnerVertex::at(own);
            Some(())
        },
    ),
    rows(
        32,
        "outer token into an own vertex",
        |random, book, which| {
            let row = which.of(random, 0..book.outer_tokens.len())?;
            let own = Which::Any.of(random, owns(&book.outer_vertices))?;
            book.outer_tokens[row].to = OuterVertex::at(own);
            Some(())
        },
    ),
    rows(33, "inner sets equal", |random, book, which| {
        let row = which.of(random, groups(&book.inner_vertices))?;
        let other = Which::some(random).of(random, groups(&book.inner_vertices))?;
        (row != other).then(|| book.inner_vertices[row] = book.inner_vertices[other])
    }),
    rows(33, "inner set again", |random, book, which| {
        let again = Which::some(random).of(random, 0..book.inner_vertices.len())?;
        let set = book.inner_vertices[again];
        insert_inner(book, which.gap(random, book.inner_vertices.len()), set)
    }),
    rows(33, "outer sets equal", |random, book, which| {
        let row = which.of(random, groups(&book.outer_vertices))?;
        let other = Which::some(random).of(random, groups(&book.outer_vertices))?;
        (row != other).then(|| book.outer_vertices[row] = book.outer_vertices[other])
    }),
    rows(33, "outer set again", |random, book, which| {
        let again = Which::some(random).of(random, 0..book.outer_vertices.len())?;
        let set = book.outer_vertices[again];
        insert_outer(book, which.gap(random, book.outer_vertices.len()), set)
    }),
    rows(33, "two empty outer sets", |random, book, which| {
        let other = Which::some(random).gap(random, book.outer_vertices.len());
        insert_outer(book, other, UserSet::EMPTY)?;
        let row = which.gap(random, book.outer_vertices.len());
        insert_outer(book, row, UserSet::EMPTY)
    }),
    rows(
        34,
        "inner token to where it starts",
        |random, book, which| {
            let row = which.of(random, steps(book))?;
            book.inner_tokens[row].from = book.inner_tokens[row].to;
            Some(())
        },
    ),
    rows(34, "inner token turned round", |random, book, which| {
        let sets = &book.inner_vertices;
        let group = |row: &usize| set_of(sets, book.inner_tokens[*row].from.index()).size() > 1;
        let row = which.of(random, steps(book).into_iter().filter(group))?;
        let token = &mut book.inner_tokens[row];
        std::mem::swap(&mut token.from, &mut token.to);
        Some(())
    }),
    rows(34, "inner token from elsewhere", |random, book, which| {
        let row = which.of(random, steps(book))?;
        let to = set_of(&book.inner_vertices, book.inner_tokens[row].to.index());
        let from = outside(random, &book.inner_vertices, to)?;
        book.inner_tokens[row].from = InnerVertex::at(from);
        Some(())
    }),
    rows(
        34,
        "outer token to where it starts",
        |random, book, which| {
            let row = which.of(random, 0..book.outer_tokens.len())?;
            book.outer_tokens[row].from = book.outer_tokens[row].to;
            Some(())
        },
    ),
    rows(34, "outer token turned round", |random, book, which| {
        let sets = &book.outer_vertices;
        let group = |row: &usize| set_of(sets, book.outer_tokens[*row].from.index()).size() > 1;
        let row = which.of(random, (0..book.outer_tokens.len()).filter(group))?;
        let token = &mut book.outer_tokens[row];
        std::mem::swap(&mut token.from, &mut token.to);
        Some(())
    }),
    rows(34, "outer token from elsewhere", |random, book, which| {
        let row = which.of(random, 0..book.outer_tokens.len())?;
        let to = set_of(&book.outer_vertices, book.outer_tokens[row].to.index());
        let from = outside(random, &book.outer_vertices, to)?;
        book.outer_tokens[row].from = OuterVertex::at(from);
        Some(())
    }),
    rows(34, "outer token at the empty set", |random, book, which| {
        let row = which.of(random, 0..book.outer_tokens.len())?;
        let empty = match book.outer_vertex_of(UserSet::EMPTY) {
            Some(empty) => empty,
            None => {
                let at = Which::Any.gap(random, book.outer_vertices.len());
                insert_outer(book, at, UserSet::EMPTY)?;
                OuterVertex::at(at)
            }
        };
        let token = &mut book.outer_tokens[row];
        match random.below(2) {
            0 => token.from = empty,
            _ => token.to = empty,
        }
        Some(())
    }),
    rows(35, "inner group without a token", |random, book, which| {
        let group = which.of(random, groups(&book.inner_vertices))?;
        let user = member(random, book.inner_vertices[group])?;
        let sets = &book.inner_vertices;
        book.inner_tokens.retain(|token| {
            let names = set_of(sets, token.from.index()).names(user);
            token.kind != 0 || token.to.index() != group || !names
        });
        Some(())
    }),
    rows(
        35,
        "inner group with another kind",
        |random, book, which| {
            let group = which.of(random, groups(&book.inner_vertices))?;
            let user = member(random, book.inner_vertices[group])?;
            for token in &mut book.inner_tokens {
                let names = set_of(&book.inner_vertices, token.from.index()).names(user);
                if token.to.index() == group && names {
                    token.kind = 1;
                }
            }
            Some(())
        },
    ),
    rows(35, "inner group of nothing", |random, book, which| {
        let set = new_group(random, book, &book.inner_vertices)?;
        insert_inner(book, which.gap(random, book.inner_vertices.len()), set)
    }),
    rows(35, "outer group without a token", |random, book, which| {
        let group = which.of(random, groups(&book.outer_vertices))?;
        let user = member(random, book.outer_vertices[group])?;
        let sets = &book.outer_vertices;
        book.outer_tokens.retain(|token| {
            token.to.index() != group || !set_of(sets, token.from.index()).names(user)
        });
        Some(())
    }),
    rows(35, "outer group of nothing", |random, book, which| {
        let set = new_group(random, book, &book.outer_vertices)?;
        insert_outer(book, which.gap(random, book.outer_vertices.len()), set)
    }),
    rows(36, "kind 1 from a group", |random, book, which| {
        let from = Which::Any.of(random, groups(&book.inner_vertices))?;
        let to = random.below(book.inner_vertices.len());
        insert_access(random, book, which, from, to)
    }),
    rows(36, "kind 1 to one who is in", |random, book, which| {
        let from = Which::Any.of(random, owns(&book.inner_vertices))?;
        let user = book.inner_vertices[from].only_user()?;
        let named = |&row: &usize| book.inner_vertices[row].names(user);
        let to = Which::Any.of(random, (0..book.inner_vertices.len()).filter(named))?;
        insert_access(random, book, which, from, to)
    }),
    rows(36, "inner token again", |random, book, which| {
        let again = Which::some(random).of(random, 0..book.inner_tokens.len())?;
        let token = book.inner_tokens[again];
        insert_inner_token(random, book, which, token)
    }),
    rows(36, "outer token again", |random, book, which| {
        let again = Which::some(random).of(random, 0..book.outer_tokens.len())?;
        let token: OuterToken = book.outer_tokens[again];
        let at = which.gap(random, book.outer_tokens.len());
        let room = book.outer_tokens.len() < MAX_OUTER_TOKENS;
        room.then(|| book.outer_tokens.insert(at, token))
    }),
    rows(37, "a list beyond the holders", |random, book, which| {
        let knowers = InnerKnowers::of(book);
        let all = book.joined();
        let held = |row: usize| {
            let inner = book.resources[row].inner;
            all.within(knowers.holders(inner))
        };
        let rows = (0..book.resources.len()).filter(|&row| !held(row));
        let row = which.of(random, rows)?;
        let others = all.minus(knowers.holders(book.resources[row].inner));
        book.resources[row].list = book.resources[row].list.with(member(random, others)?);
        Some(())
    }),
    rows(38, "no outer vertex", |random, book, which| {
        let locked = |row: &usize| book.resources[*row].outer.is_some();
        let row = which.of(random, (0..book.resources.len()).filter(locked))?;
        book.resources[row].outer = None;
        Some(())
    }),
    rows(38, "another outer vertex", |random, book, which| {
        let row = which.of(random, 0..book.resources.len())?;
        let outer = OuterVertex::at(random.below(book.outer_vertices.len()));
        let other = book.resources[row].outer != Some(outer);
        other.then(|| book.resources[row].outer = Some(outer))
    }),
    rows(38, "a list that is smaller", |random, book, which| {
        let row = which.of(random, 0..book.resources.len())?;
        let user = member(random, book.resources[row].list)?;
        book.resources[row].list = book.resources[row].list.without(user);
        Some(())
    }),
    rows(38, "the other mode", |_, book, _| {
        book.mode = 1 - book.mode.min(1);
        Some(())
    }),
];

/// Puts a count over its limit: by one, by some, or as far as there is.
fn over(random: &mut Random, bytes: &mut [u8], count: usize) {
    if bytes.len() < HEAD_LENGTH {
        return;
    }
    let limit = limited(&head_in(bytes))[count].most;
    let (at, width) = (COUNT_PLACES[count], if count == 0 { 1 } else { 2 });
    let most = (1 << (8 * width)) - 1;
    let more = [1, 2, random.below(most), most][random.below(4)];
    let value = (limit + more).min(most).to_le_bytes();
    bytes[at..at + width].copy_from_slice(&value[..width]);
}

/// A number that is no vertex's, of so many.
fn nowhere(random: &mut Random, vertices: usize, most: usize) -> u16 {
    let number = match random.below(4) {
        0 => vertices,
        1 => most,
        2 => vertices + 256,
        _ => random.between(vertices, most),
    };
    number.min(most) as u16
}

/// The set with a user who has not joined.
fn with_stranger(random: &mut Random, book: &Book, set: UserSet) -> Option<UserSet> {
    let strangers = UserSet(u64::MAX).minus(book.joined());
    let stranger = match random.below(3) {
        0 => User(book.users),
        1 => User(63),
        _ => member(random, strangers)?,
    };
    strangers.names(stranger).then(|| set.with(stranger))
}

/// The set of a vertex, nobody's where there is none.
fn set_of(sets: &[UserSet], vertex: usize) -> UserSet {
    sets.get(vertex).copied().unwrap_or_default()
}

fn owns(sets: &[UserSet]) -> Vec<usize> {
    let own = |row: &usize| sets[*row].size() == 1;
    (0..sets.len()).filter(own).collect()
}

fn groups(sets: &[UserSet]) -> Vec<usize> {
    let group = |row: &usize| sets[*row].size() > 1;
    (0..sets.len()).filter(group).collect()
}

/// The rows of inner tokens of kind 0.
fn steps(book: &Book) -> Vec<usize> {
    let step = |row: &usize| book.inner_tokens[*row].kind == 0;
    (0..book.inner_tokens.len()).filter(step).collect()
}

/// A vertex with a set that is no proper part of that one.
fn outside(random: &mut Random, sets: &[UserSet], set: UserSet) -> Option<usize> {
    let no_part = |row: &usize| !sets[*row].strictly_within(set);
    Which::Any.of(random, (0..sets.len()).filter(no_part))
}

/// A set of at least two users that is not there.
fn new_group(random: &mut Random, book: &Book, sets: &[UserSet]) -> Option<UserSet> {
    let some = (0..8).map(|_| subset(random, book.joined()));
    let mut some = some.collect::<Vec<_>>().into_iter();
    some.find(|set| set.size() > 1 && !sets.contains(set))
}

/// The numbers from a row on, one higher where a row is put before it.
fn moved(number: &mut u16, at: usize) {
    if usize::from(*number) >= at && *number < 65000 {
        *number += 1;
    }
}

/// A new inner vertex in that row, if there may be one more.
fn insert_inner(book: &mut Book, at: usize, set: UserSet) -> Option<()> {
    if book.inner_vertices.len() >= usize::from(book.users) + book.resources.len() {
        return None;
    }
    for token in &mut book.inner_tokens {
        moved(&mut token.from.0, at);
        moved(&mut token.to.0, at);
    }
    for row in &mut book.resources {
        moved(&mut row.inner.0, at);
    }
    book.inner_vertices.insert(at, set);
    Some(())
}

/// A new outer vertex in that row, if there may be one more.
fn insert_outer(book: &mut Book, at: usize, set: UserSet) -> Option<()> {
    if book.outer_vertices.len() >= usize::from(book.users) + MAX_OUTER_GROUPS {
        return None;
    }
    for token in &mut book.outer_tokens {
        moved(&mut token.from.0, at);
        moved(&mut token.to.0, at);
    }
    for row in &mut book.resources {
        if let Some(outer) = &mut row.outer {
            moved(&mut outer.0, at);
        }
    }
    book.outer_vertices.insert(at, set);
    Some(())
}

/// A new kind 1 token in that row, if there may be one more.
fn insert_access(
    random: &mut Random,
    book: &mut Book,
    which: Which,
    from: usize,
    to: usize,
) -> Option<()> {
    let token = InnerToken {
        from: InnerVertex::at(from),
        to: InnerVertex::at(to),
        kind: 1,
    };
    insert_inner_token(random, book, which, token)
}

/// A new inner token in that row, if there may be one more.
fn insert_inner_token(
    random: &mut Random,
    book: &mut Book,
    which: Which,
    token: InnerToken,
) -> Option<()> {
    let at = which.gap(random, book.inner_tokens.len());
    let room = book.inner_tokens.len() < MAX_INNER_TOKENS;
    room.then(|| book.inner_tokens.insert(at, token))
}

/// The bytes of the book, of that version, with these kinds of damage, each at
/// that row: those to rows first. None where one of them can not be done, also
/// because the version has no leavers.
pub fn damaged(
    random: &mut Random,
    book: &Book,
    kinds: &[(Kind, Which)],
    version: Version,
) -> Option<Vec<u8>> {
    let mut damaged = book.clone();
    if version == Version::One {
        damaged.leavers = UserSet::EMPTY;
    }
    for (kind, which) in kinds {
        if let Does::Rows(does) = kind.does {
            does(random, &mut damaged, *which)?;
        }
    }
    if version == Version::One && !damaged.leavers.is_empty() {
        return None;
    }
    let mut bytes = bytes::write_as(&damaged, version);
    for (kind, _) in kinds {
        if let Does::Head(does) = kind.does {
            does(random, &mut bytes);
        }
    }
    Some(bytes)
}

/// One of both versions.
pub fn some_version(random: &mut Random) -> Version {
    Version::ALL[random.below(2)]
}

/// Any kind at any row.
pub fn some_kind(random: &mut Random) -> (Kind, Which) {
    // Numbers have different counts of kinds; each number is as likely.
    let number = [20, 21, 22, 23, 24, 31, 32, 33, 34, 35, 36, 37, 38][random.below(13)];
    let of_number = KINDS.iter().filter(|kind| kind.number == number);
    let of_number: Vec<Kind> = of_number.copied().collect();
    let kind = random.pick(&of_number).unwrap_or(KINDS[0]);
    (kind, Which::some(random))
}

/// The book with one kind of damage to its rows, as tables can have it.
pub fn damaged_rows(random: &mut Random, book: &Book) -> Option<Book> {
    let (kind, which) = some_kind(random);
    let mut book = book.clone();
    match kind.does {
        Does::Rows(does) => does(random, &mut book, which)?,
        Does::Head(_) => return None,
    }
    Some(book)
}

/// A small book in which nearly every kind of damage finds its rows.
pub fn rich(random: &mut Random) -> Book {
    let mode = [Mode::Delta, Mode::Full][random.below(2)];
    let spare = random.below(2) * random.below(30);
    let shape = Shape {
        mode,
        users: random.between(3, 8),
        leavers: random.below(3),
        resources: random.between(5, 12),
        inner_groups: random.between(2, 4),
        access_tokens: random.between(3, 9),
        outer_groups: random.between(3, 8),
        inner_tokens: spare,
        outer_tokens: spare,
        chains: random.chance(1, 2),
    };
    generate::book(random, &shape)
}

#[cfg(test)]
mod tests {
    use super::*;

    #[test]
    fn each_kind_meets_its_number() {
        let random = &mut Random::new(6);
        for kind in KINDS {
            for (version, which) in Version::ALL
                .map(|one| Which::ENDS.map(|which| (one, which)))
                .concat()
            {
                if version == Version::One && kind.name.contains("leaver") {
                    continue;
                }
                let tries = (0..60).filter_map(|_| {
                    let book = rich(random);
                    let bytes = damaged(random, &book, &[(kind, which)], version)?;
                    Some(bytes::read(&bytes).map_err(|fault| fault.number()).err())
                });
                let numbers: Vec<Option<u8>> = tries.collect();
                let hits = numbers.iter().filter(|&&one| one == Some(kind.number));
                let hits = hits.count();
                assert!(hits > 2, "{} {which:?}: {numbers:?}", kind.name);
            }
        }
    }
}
