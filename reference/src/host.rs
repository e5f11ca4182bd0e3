//! A host that only obeys orders (RULES 6.5 to 6.7).
//!
//! It never sees a list or a set of users. It keeps its own graph and gives
//! every key a value: toys of 64 bits, but used as the method asks. A token
//! is the target's key masked with a hash of the source's key and the
//! target's label; an access key is the hash of the derivation key; a folder
//! is masked with its access key, then with its outer key if it has one, and
//! re-locking never touches the inner mask. Whoever ends with the plain value
//! has opened the folder.
//!
//! Two hosts are equal if they have the same keys, tokens and locks, to the
//! value. What an order asks for must not be there yet; only a host that goes
//! on after a stop, and so obeys orders again, leaves it as it is.

use crate::book::{Book, KIND_ACCESS, KIND_DERIVATION, NO_OUTER_KEY};
use crate::generate::Random;
use crate::numbers::User;
use crate::requests::{Order, Request};

/// A token of the host: where from, where to, its kind (0 in the outer
/// layer), and its public value.
#[derive(Clone, Debug, PartialEq, Eq)]
struct Token {
    from: usize,
    to: usize,
    kind: u8,
    value: u64,
}

/// Where a token starts and leads, and its kind.
type Way = (usize, usize, u8);

impl Token {
    fn way(&self) -> Way {
        (self.from, self.to, self.kind)
    }
}

/// A folder of the host.
#[derive(Clone, Debug, PartialEq, Eq)]
struct Folder {
    inner: usize,
    outer: Option<usize>,
    /// What is stored.
    sealed: u64,
    /// What it reads when opened; kept to check, given to nobody.
    plain: u64,
}

/// The vertices whose keys a user was handed on joining.
#[derive(Clone, Copy, Debug, Default, PartialEq, Eq)]
struct Handed {
    inner: Option<usize>,
    outer: Option<usize>,
}

/// The host.
#[derive(Clone, Debug, PartialEq, Eq)]
pub struct Host {
    random: Random,
    /// Derivation keys of the inner vertices.
    inner: Vec<u64>,
    /// Keys of the outer vertices.
    outer: Vec<u64>,
    inner_tokens: Vec<Token>,
    outer_tokens: Vec<Token>,
    folders: Vec<Folder>,
    /// The lock kept in mind for the folder that is encrypted next.
    next_lock: Option<usize>,
    /// What each user was handed.
    handed: Vec<Handed>,
}

/// The orders of one request, as rows.
#[derive(Clone, Debug, PartialEq, Eq)]
pub struct Task {
    /// The rows.
    pub rows: Vec<[u16; 3]>,
    /// Who is handed the keys that are made, if it is a join.
    pub joiner: Option<User>,
}

impl Task {
    /// The orders of an accepted request on that book.
    pub fn of(book: &Book, request: &Request, orders: &[Order]) -> Task {
        Task {
            rows: orders.iter().map(|order| order.row()).collect(),
            joiner: (*request == Request::Join).then_some(User(book.users)),
        }
    }
}

/// What a user of the host derived: the keys' values.
#[derive(Clone, Debug)]
pub struct Derived {
    access: Vec<Option<u64>>,
    outer: Vec<Option<u64>>,
}

/// A one-way function for toys.
fn hash(key: u64, label: u64) -> u64 {
    let mut random = Random::new(key ^ label.wrapping_mul(0x9E37_79B9_7F4A_7C15).rotate_left(17));
    random.next() ^ random.next().rotate_left(32)
}

const LABEL_ACCESS: u64 = 1 << 40;
const LABEL_INNER: u64 = 2 << 40;
const LABEL_INNER_ACCESS: u64 = 3 << 40;
const LABEL_OUTER: u64 = 4 << 40;
const LABEL_FOLDER: u64 = 5 << 40;

fn access_key(derivation_key: u64) -> u64 {
    hash(derivation_key, LABEL_ACCESS)
}

/// What masks a token of that kind from a key to a vertex.
fn token_mask(from_key: u64, to: usize, kind: u8) -> u64 {
    let label = if kind == KIND_ACCESS {
        LABEL_INNER_ACCESS
    } else {
        LABEL_INNER
    };
    hash(from_key, label + to as u64)
}

fn outer_token_mask(from_key: u64, to: usize) -> u64 {
    hash(from_key, LABEL_OUTER + to as u64)
}

fn folder_mask(key: u64, folder: usize) -> u64 {
    hash(key, LABEL_FOLDER + folder as u64)
}

/// What the users of a book were handed: the keys of their own vertices.
fn handed(book: &Book) -> impl Iterator<Item = Handed> + '_ {
    book.joined().users().map(|user| Handed {
        inner: book.own_inner_vertex(user).map(|vertex| vertex.index()),
        outer: book.own_outer_vertex(user).map(|vertex| vertex.index()),
    })
}

impl Host {
    /// A host with nothing, whose keys come from the seed.
    pub fn new(seed: u64) -> Host {
        Host {
            random: Random::new(seed),
            inner: Vec::new(),
            outer: Vec::new(),
            inner_tokens: Vec::new(),
            outer_tokens: Vec::new(),
            folders: Vec::new(),
            next_lock: None,
            handed: Vec::new(),
        }
    }

    /// A host that has obeyed orders for all that stands in the book.
    pub fn of(book: &Book, seed: u64) -> Result<Host, String> {
        let mut host = Host::new(seed);
        let mut row = |row| host.obey(row, None);
        for place in 0..book.inner_vertices.len() {
            row([4, place as u16, 0])?;
        }
        for place in 0..book.outer_vertices.len() {
            row([1, place as u16, 0])?;
        }
        for token in &book.inner_tokens {
            let kind = if token.kind == KIND_DERIVATION { 5 } else { 6 };
            row([kind, token.from.0, token.to.0])?;
        }
        for token in &book.outer_tokens {
            row([2, token.from.0, token.to.0])?;
        }
        for (place, folder) in book.resources.iter().enumerate() {
            if let Some(outer) = folder.outer {
                row([3, place as u16, outer.0])?;
            }
            row([7, place as u16, folder.inner.0])?;
        }
        host.handed = handed(book).collect();
        Ok(host)
    }

    /// Obeys all orders of a request.
    pub fn execute(&mut self, task: &Task) -> Result<(), String> {
        let mut rows = task.rows.iter();
        rows.try_for_each(|&row| self.obey(row, task.joiner))?;
        match self.next_lock {
            None => Ok(()),
            Some(lock) => Err(format!("lock {lock} is for a folder that did not come")),
        }
    }

    /// Obeys one order. What it asks for must not be there yet.
    pub fn obey(&mut self, row: [u16; 3], joiner: Option<User>) -> Result<(), String> {
        if self.has(row) {
            return Err(format!("asked for what is there already: {row:?}"));
        }
        self.make(row, joiner)
    }

    /// Obeys one order once more. What is there already stays as it is.
    pub fn obey_again(&mut self, row: [u16; 3], joiner: Option<User>) -> Result<(), String> {
        if self.has(row) {
            return Ok(());
        }
        self.make(row, joiner)
    }

    /// Whether what the order asks for is there: a key, a token, a lock or an
    /// encrypted folder.
    fn has(&self, [kind, a, b]: [u16; 3]) -> bool {
        let lock = (b != NO_OUTER_KEY).then_some(usize::from(b));
        let (a, b) = (usize::from(a), usize::from(b));
        let among = |tokens: &[Token], way: Way| tokens.iter().any(|token| token.way() == way);
        match kind {
            1 => a < self.outer.len(),
            2 => among(&self.outer_tokens, (a, b, 0)),
            3 => match self.folders.get(a) {
                Some(folder) => folder.outer == lock,
                None => a == self.folders.len() && lock.is_some() && self.next_lock == lock,
            },
            4 => a < self.inner.len(),
            5 => among(&self.inner_tokens, (a, b, KIND_DERIVATION)),
            6 => among(&self.inner_tokens, (a, b, KIND_ACCESS)),
            7 => self.folders.get(a).is_some_and(|folder| folder.inner == b),
            _ => false,
        }
    }

    /// Makes what the order asks for.
    fn make(&mut self, row: [u16; 3], joiner: Option<User>) -> Result<(), String> {
        let [kind, a, b] = row;
        let unlocks = b == NO_OUTER_KEY;
        let (a, b) = (usize::from(a), usize::from(b));
        match kind {
            1 if a == self.outer.len() && b == 0 => {
                self.outer.push(self.random.next());
                if let Some(user) = joiner {
                    self.hands(user).outer = Some(a);
                }
            }
            2 if a < self.outer.len() && b < self.outer.len() => {
                self.outer_tokens.push(Token {
                    from: a,
                    to: b,
                    kind: 0,
                    value: self.outer[b] ^ outer_token_mask(self.outer[a], b),
                });
            }
            3 if a < self.folders.len() && unlocks => self.relock(a, None),
            3 if a < self.folders.len() && b < self.outer.len() => self.relock(a, Some(b)),
            3 if a == self.folders.len() && b < self.outer.len() => self.next_lock = Some(b),
            4 if a == self.inner.len() && b == 0 => {
                self.inner.push(self.random.next());
                if let Some(user) = joiner {
                    self.hands(user).inner = Some(a);
                }
            }
            5 | 6 if a < self.inner.len() && b < self.inner.len() => {
                let (kind, target) = if kind == 5 {
                    (KIND_DERIVATION, self.inner[b])
                } else {
                    (KIND_ACCESS, access_key(self.inner[b]))
                };
                self.inner_tokens.push(Token {
                    from: a,
                    to: b,
                    kind,
                    value: target ^ token_mask(self.inner[a], b, kind),
                });
            }
            7 if a == self.folders.len() && b < self.inner.len() => {
                let plain = self.random.next();
                self.folders.push(Folder {
                    inner: b,
                    outer: None,
                    sealed: plain ^ folder_mask(access_key(self.inner[b]), a),
                    plain,
                });
                let lock = self.next_lock.take();
                self.relock(a, lock);
            }
            _ => return Err(format!("an order that can not be obeyed: {row:?}")),
        }
        Ok(())
    }

    /// What the user was handed, nothing as yet if they are new.
    fn hands(&mut self, user: User) -> &mut Handed {
        if self.handed.len() <= user.index() {
            self.handed.resize(user.index() + 1, Handed::default());
        }
        &mut self.handed[user.index()]
    }

    /// Takes the folder's outer lock off, if there is one, and puts this one
    /// on, if it is one.
    fn relock(&mut self, place: usize, lock: Option<usize>) {
        let folder = &mut self.folders[place];
        if let Some(old) = folder.outer {
            folder.sealed ^= folder_mask(self.outer[old], place);
        }
        if let Some(new) = lock {
            folder.sealed ^= folder_mask(self.outer[new], place);
        }
        folder.outer = lock;
    }

    /// How many folders are encrypted.
    pub fn folders(&self) -> usize {
        self.folders.len()
    }

    /// What the user derives from the keys handed to them and the public
    /// tokens.
    pub fn derive(&self, user: User) -> Derived {
        let mut derivation: Vec<Option<u64>> = vec![None; self.inner.len()];
        let mut outer: Vec<Option<u64>> = vec![None; self.outer.len()];
        let handed = self.handed.get(user.index()).copied().unwrap_or_default();
        if let Some(own) = handed.inner {
            derivation[own] = Some(self.inner[own]);
        }
        if let Some(own) = handed.outer {
            outer[own] = Some(self.outer[own]);
        }
        let mut more = true;
        while more {
            more = false;
            for token in &self.inner_tokens {
                if let (KIND_DERIVATION, Some(key), None) =
                    (token.kind, derivation[token.from], derivation[token.to])
                {
                    derivation[token.to] =
                        Some(token.value ^ token_mask(key, token.to, token.kind));
                    more = true;
                }
            }
            for token in &self.outer_tokens {
                if let (Some(key), None) = (outer[token.from], outer[token.to]) {
                    outer[token.to] = Some(token.value ^ outer_token_mask(key, token.to));
                    more = true;
                }
            }
        }
        let mut access: Vec<Option<u64>> =
            derivation.iter().map(|key| key.map(access_key)).collect();
        for token in &self.inner_tokens {
            if let (KIND_ACCESS, Some(key), None) =
                (token.kind, derivation[token.from], access[token.to])
            {
                access[token.to] = Some(token.value ^ token_mask(key, token.to, token.kind));
            }
        }
        Derived { access, outer }
    }

    /// Whether someone with those keys reads the folder: takes off the masks
    /// for which there are keys, and looks whether the plain value is left.
    pub fn opens(&self, derived: &Derived, folder: usize) -> bool {
        let Some(stored) = self.folders.get(folder) else {
            return false;
        };
        let mut value = stored.sealed;
        if let Some(key) = stored.outer.and_then(|outer| derived.outer[outer]) {
            value ^= folder_mask(key, folder);
        }
        if let Some(key) = derived.access[stored.inner] {
            value ^= folder_mask(key, folder);
        }
        value == stored.plain
    }

    /// Whether the host's graph is exactly the book's: vertices, tokens in
    /// their rows, the two keys of every resource, and what was handed out.
    pub fn agrees(&self, book: &Book) -> Result<(), String> {
        let differ = |what: &str| Err(format!("the host's {what} differ from the book's"));
        if self.inner.len() != book.inner_vertices.len() {
            return differ("inner vertices");
        }
        if self.outer.len() != book.outer_vertices.len() {
            return differ("outer vertices");
        }
        let inner_tokens = book
            .inner_tokens
            .iter()
            .map(|token| (token.from.index(), token.to.index(), token.kind));
        if !self.inner_tokens.iter().map(Token::way).eq(inner_tokens) {
            return differ("inner tokens");
        }
        let outer_tokens = book
            .outer_tokens
            .iter()
            .map(|token| (token.from.index(), token.to.index(), 0));
        if !self.outer_tokens.iter().map(Token::way).eq(outer_tokens) {
            return differ("outer tokens");
        }
        let locks = book
            .resources
            .iter()
            .map(|row| (row.inner.index(), row.outer.map(|vertex| vertex.index())));
        let own = |folder: &Folder| (folder.inner, folder.outer);
        if !self.folders.iter().map(own).eq(locks) || self.next_lock.is_some() {
            return differ("locks");
        }
        if !self.handed.iter().copied().eq(handed(book)) {
            return differ("users");
        }
        Ok(())
    }
}
