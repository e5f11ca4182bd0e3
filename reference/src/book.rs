//! The book: five tables and the few numbers at their head.

use crate::numbers::{InnerVertex, OuterVertex, Resource, User};
use crate::sets::UserSet;
use crate::sound::{sound, Rule};

/// Most users.
pub const MAX_USERS: usize = 64;
/// Most resources.
pub const MAX_RESOURCES: usize = 256;
/// Most inner tokens, both kinds together.
pub const MAX_INNER_TOKENS: usize = 4096;
/// Most outer tokens.
pub const MAX_OUTER_TOKENS: usize = 4096;
/// Most outer vertices that are not a user's own.
pub const MAX_OUTER_GROUPS: usize = 448;
/// Rows of the inner vertex table, the users' own among them.
pub const MAX_INNER_VERTICES: usize = MAX_USERS + MAX_RESOURCES;
/// Rows of the outer vertex table, the users' own among them.
pub const MAX_OUTER_VERTICES: usize = MAX_USERS + MAX_OUTER_GROUPS;

/// What stands in a resource's row for "no outer key".
pub const NO_OUTER_KEY: u16 = 65535;

/// The kind of an inner token that leads to a derivation key.
pub const KIND_DERIVATION: u8 = 0;
/// The kind of an inner token that leads to an access key.
pub const KIND_ACCESS: u8 = 1;

/// Which folders are locked in the outer layer.
#[derive(Clone, Copy, Debug, PartialEq, Eq)]
pub enum Mode {
    /// 0: all.
    Full,
    /// 1: those for which the inner layer does not suffice.
    Delta,
}

impl Mode {
    /// The mode's number in a book.
    pub fn number(self) -> u16 {
        match self {
            Mode::Full => 0,
            Mode::Delta => 1,
        }
    }

    /// The mode with that number.
    pub fn of(number: u16) -> Option<Mode> {
        match number {
            0 => Some(Mode::Full),
            1 => Some(Mode::Delta),
            _ => None,
        }
    }

    /// The mode's word in the request program.
    pub fn word(self) -> &'static str {
        match self {
            Mode::Full => "full",
            Mode::Delta => "delta",
        }
    }
}

/// A row of the inner token table. It starts at a derivation key.
#[derive(Clone, Copy, Debug, PartialEq, Eq, PartialOrd, Ord, Hash)]
pub struct InnerToken {
    /// Where it starts.
    pub from: InnerVertex,
    /// Where it leads.
    pub to: InnerVertex,
    /// [`KIND_DERIVATION`] or [`KIND_ACCESS`]; anything else is unsound.
    pub kind: u8,
}

/// A row of the outer token table.
#[derive(Clone, Copy, Debug, PartialEq, Eq, PartialOrd, Ord, Hash)]
pub struct OuterToken {
    /// Where it starts.
    pub from: OuterVertex,
    /// Where it leads.
    pub to: OuterVertex,
}

/// A row of the resource table.
#[derive(Clone, Copy, Debug, PartialEq, Eq)]
pub struct ResourceRow {
    /// Who may read it.
    pub list: UserSet,
    /// The vertex whose access key encrypts it.
    pub inner: InnerVertex,
    /// The vertex whose key locks it, if one does.
    pub outer: Option<OuterVertex>,
}

/// One of the five tables, as a section of a book's bytes.
#[derive(Clone, Copy, Debug, PartialEq, Eq, PartialOrd, Ord, Hash)]
pub enum Section {
    /// 0.
    InnerVertices,
    /// 1.
    InnerTokens,
    /// 2.
    OuterVertices,
    /// 3.
    OuterTokens,
    /// 4.
    Resources,
}

impl Section {
    /// All of them, as they follow each other in a book.
    pub const ALL: [Section; 5] = [
        Section::InnerVertices,
        Section::InnerTokens,
        Section::OuterVertices,
        Section::OuterTokens,
        Section::Resources,
    ];

    /// Its number, 0 to 4.
    pub fn number(self) -> usize {
        self as usize
    }
}

/// The numbers at the head of a book. Any values can stand here; most make
/// no sound book.
#[derive(Clone, Copy, Debug, Default, PartialEq, Eq)]
pub struct Head {
    /// 0 full, 1 delta.
    pub mode: u16,
    /// How many users have joined.
    pub users: u16,
    /// Who of them has left.
    pub leavers: UserSet,
    /// Rows in use of the resource table.
    pub resources: u16,
    /// Rows in use of the inner vertex table.
    pub inner_vertices: u16,
    /// Rows in use of the inner token table.
    pub inner_tokens: u16,
    /// Rows in use of the outer vertex table.
    pub outer_vertices: u16,
    /// Rows in use of the outer token table.
    pub outer_tokens: u16,
}

impl Head {
    /// How many numbers it is in C.
    pub const NUMBERS: usize = 11;

    /// The head as C has it: mode, users and the counts, then the set of
    /// leavers, 16 bits to a number, the lowest first.
    pub fn numbers(&self) -> [u16; Head::NUMBERS] {
        let set = |k: u32| (self.leavers.0 >> (16 * k)) as u16;
        [
            self.mode,
            self.users,
            self.resources,
            self.inner_vertices,
            self.inner_tokens,
            self.outer_vertices,
            self.outer_tokens,
            set(0),
            set(1),
            set(2),
            set(3),
        ]
    }

    /// The head in the numbers that C has of it.
    pub fn from_numbers(numbers: &[u16; Head::NUMBERS]) -> Head {
        let [mode, users, resources, inner_vertices, inner_tokens, outer_vertices, outer_tokens, set @ ..] =
            *numbers;
        let leavers = set
            .iter()
            .rev()
            .fold(0, |all, &part| all << 16 | u64::from(part));
        Head {
            mode,
            users,
            leavers: UserSet(leavers),
            resources,
            inner_vertices,
            inner_tokens,
            outer_vertices,
            outer_tokens,
        }
    }

    /// Rows in use of the five tables, in the order of the book's sections.
    pub fn counts(&self) -> [usize; 5] {
        [
            usize::from(self.inner_vertices),
            usize::from(self.inner_tokens),
            usize::from(self.outer_vertices),
            usize::from(self.outer_tokens),
            usize::from(self.resources),
        ]
    }
}

/// A book with any content, sound or not. The counts are the lengths of the
/// tables.
#[derive(Clone, Debug, PartialEq, Eq)]
pub struct Book {
    /// 0 full, 1 delta; anything else is unsound.
    pub mode: u16,
    /// How many users have joined.
    pub users: u16,
    /// Who of them has left, for good.
    pub leavers: UserSet,
    /// The starting set of each inner vertex.
    pub inner_vertices: Vec<UserSet>,
    /// The inner tokens.
    pub inner_tokens: Vec<InnerToken>,
    /// The set of each outer vertex.
    pub outer_vertices: Vec<UserSet>,
    /// The outer tokens.
    pub outer_tokens: Vec<OuterToken>,
    /// The resources.
    pub resources: Vec<ResourceRow>,
}

impl Book {
    /// The book in which nobody has joined.
    pub fn empty(mode: Mode) -> Book {
        Book {
            mode: mode.number(),
            users: 0,
            leavers: UserSet::EMPTY,
            inner_vertices: Vec::new(),
            inner_tokens: Vec::new(),
            outer_vertices: Vec::new(),
            outer_tokens: Vec::new(),
            resources: Vec::new(),
        }
    }

    /// The head: mode, users, leavers and the tables' lengths. A length that does not
    /// fit shows as 65535, which is past every limit.
    pub fn head(&self) -> Head {
        let count = |length: usize| u16::try_from(length).unwrap_or(u16::MAX);
        Head {
            mode: self.mode,
            users: self.users,
            leavers: self.leavers,
            resources: count(self.resources.len()),
            inner_vertices: count(self.inner_vertices.len()),
            inner_tokens: count(self.inner_tokens.len()),
            outer_vertices: count(self.outer_vertices.len()),
            outer_tokens: count(self.outer_tokens.len()),
        }
    }

    /// Everyone who has joined, the leavers among them.
    pub fn joined(&self) -> UserSet {
        UserSet::first(self.users)
    }

    /// Everyone who has joined and not left.
    pub fn staying(&self) -> UserSet {
        self.joined().minus(self.leavers)
    }

    /// The row of a resource, if it exists.
    pub fn resource(&self, resource: Resource) -> Option<&ResourceRow> {
        self.resources.get(resource.index())
    }

    /// The inner vertex with that set, the lowest if several.
    pub fn inner_vertex_of(&self, set: UserSet) -> Option<InnerVertex> {
        place_of(&self.inner_vertices, set).map(InnerVertex::at)
    }

    /// The outer vertex with that set, the lowest if several.
    pub fn outer_vertex_of(&self, set: UserSet) -> Option<OuterVertex> {
        place_of(&self.outer_vertices, set).map(OuterVertex::at)
    }

    /// The user's own inner vertex.
    pub fn own_inner_vertex(&self, user: User) -> Option<InnerVertex> {
        (user.0 < self.users).then(|| self.inner_vertex_of(UserSet::alone(user)))?
    }

    /// The user's own outer vertex.
    pub fn own_outer_vertex(&self, user: User) -> Option<OuterVertex> {
        (user.0 < self.users).then(|| self.outer_vertex_of(UserSet::alone(user)))?
    }

    /// Outer vertices that are not a user's own, where each user has one.
    pub fn outer_groups(&self) -> usize {
        self.outer_vertices
            .len()
            .saturating_sub(usize::from(self.users))
    }
}

fn place_of(sets: &[UserSet], set: UserSet) -> Option<usize> {
    sets.iter().position(|&other| other == set)
}

/// A book known to keep S1 to S8. The requests are made on this type alone,
/// and each leaves such a book.
#[derive(Clone, Debug, PartialEq, Eq)]
pub struct SoundBook(pub(crate) Book);

impl SoundBook {
    /// The book in which nobody has joined.
    pub fn empty(mode: Mode) -> SoundBook {
        SoundBook(Book::empty(mode))
    }

    /// Judges a book; names the first rule it breaks.
    pub fn new(book: Book) -> Result<SoundBook, Rule> {
        sound(&book)?;
        Ok(SoundBook(book))
    }

    /// The book itself.
    pub fn book(&self) -> &Book {
        &self.0
    }

    /// The book itself, no longer known to be sound.
    pub fn into_book(self) -> Book {
        self.0
    }

    /// The mode.
    pub fn mode(&self) -> Mode {
        if self.0.mode == Mode::Full.number() {
            Mode::Full
        } else {
            Mode::Delta
        }
    }
}
