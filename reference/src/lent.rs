//! The calls over lent tables: everything is the caller's memory, bytes in
//! the row layout of the book's sections.
//!
//! Every call makes its own checks, in the order of the table of refusals. A
//! refusal leaves every lent byte as it was, but for the cells of
//! [`section`]. Rows past the book's counts, order rows and buffer bytes past
//! the answer are never touched.

use crate::book::{Book, Head, SoundBook};
use crate::bytes::{self, read_rows, write_rows, LIMITS, WIDTHS};
use crate::numbers::{Resource, User};
use crate::refusal::{Refusal, View};
use crate::requests::{Answer, List, Order, Request};
use crate::sets::UserSet;
use crate::sound::{possible, sound, Rule};

/// Five lent tables, each at least its limit of rows long.
#[derive(Debug)]
pub struct Tables<'a> {
    /// 8 bytes a row: set.
    pub inner_vertices: &'a mut [u8],
    /// 5 bytes a row: from, to, kind.
    pub inner_tokens: &'a mut [u8],
    /// 8 bytes a row: set.
    pub outer_vertices: &'a mut [u8],
    /// 4 bytes a row: from, to.
    pub outer_tokens: &'a mut [u8],
    /// 12 bytes a row: list, inner vertex, outer vertex.
    pub resources: &'a mut [u8],
}

impl Tables<'_> {
    /// The five tables in the order of the book's sections.
    fn parts(&self) -> [&[u8]; 5] {
        [
            self.inner_vertices,
            self.inner_tokens,
            self.outer_vertices,
            self.outer_tokens,
            self.resources,
        ]
    }

    /// Refusal 13 if one is shorter than its limit.
    fn long_enough(&self) -> Result<(), Refusal> {
        let lengths = self.parts().map(<[u8]>::len);
        let long = (0..5).all(|k| lengths[k] >= LIMITS[k] * WIDTHS[k]);
        long.then_some(()).ok_or(Refusal::TABLE_SHORT)
    }

    /// Reads the rows in use. The head must be a possible one and the tables
    /// long enough.
    fn book(&self, head: &Head) -> Book {
        let counts = head.counts();
        let parts = self.parts();
        let used = |k: usize| &parts[k][..counts[k] * WIDTHS[k]];
        Book {
            mode: head.mode,
            users: head.users,
            leavers: head.leavers,
            inner_vertices: read_rows(used(0)),
            inner_tokens: read_rows(used(1)),
            outer_vertices: read_rows(used(2)),
            outer_tokens: read_rows(used(3)),
            resources: read_rows(used(4)),
        }
    }

    /// Writes the rows of the book that can differ from those of the book
    /// with the head `before`: the new ones, and the resources.
    fn store(&mut self, before: &Head, book: &Book) {
        let [inner_vertices, inner_tokens, outer_vertices, outer_tokens, _] = before.counts();
        write_rows(
            &book.inner_vertices[inner_vertices..],
            &mut self.inner_vertices[inner_vertices * WIDTHS[0]..],
        );
        write_rows(
            &book.inner_tokens[inner_tokens..],
            &mut self.inner_tokens[inner_tokens * WIDTHS[1]..],
        );
        write_rows(
            &book.outer_vertices[outer_vertices..],
            &mut self.outer_vertices[outer_vertices * WIDTHS[2]..],
        );
        write_rows(
            &book.outer_tokens[outer_tokens..],
            &mut self.outer_tokens[outer_tokens * WIDTHS[3]..],
        );
        write_rows(&book.resources, self.resources);
    }
}

/// 13, then 12, then the book.
fn look(head: &Head, tables: &Tables) -> Result<SoundBook, Refusal> {
    tables.long_enough()?;
    if !possible(head) {
        return Err(Refusal::UNSOUND);
    }
    SoundBook::new(tables.book(head)).map_err(|_| Refusal::UNSOUND)
}

/// The first rule the lent book breaks, if any. Refusal: 13.
pub fn broken_rule(head: &Head, tables: &Tables) -> Result<Option<Rule>, Refusal> {
    tables.long_enough()?;
    if !possible(head) {
        return Ok(Some(Rule::S1));
    }
    Ok(sound(&tables.book(head)).err())
}

/// How many rows of three numbers the list has.
fn rows_of<T>(list: &[T]) -> usize {
    list.len() / 3
}

/// Does a request that changes the book. Answers the new head and the count
/// of orders.
fn change(
    head: &Head,
    tables: &mut Tables,
    orders: &mut [u16],
    request: impl FnOnce(&mut SoundBook, usize) -> Result<Vec<Order>, Refusal>,
) -> Result<(Head, usize), Refusal> {
    let mut book = look(head, tables)?;
    let given = request(&mut book, rows_of(orders))?;
    for (order, place) in given.iter().zip(orders.chunks_exact_mut(3)) {
        place.copy_from_slice(&order.row());
    }
    tables.store(head, book.book());
    Ok((book.book().head(), given.len()))
}

/// Join. Refusals: 13, 12, 2, 10.
pub fn join(
    head: &Head,
    tables: &mut Tables,
    orders: &mut [u16],
) -> Result<(Head, usize), Refusal> {
    change(head, tables, orders, |book, room| book.join(room))
}

/// Insert. Refusals: 13, 12, 1, 15, 4, 3, 7, 8, 9, 10.
pub fn insert(
    head: &Head,
    tables: &mut Tables,
    set: u64,
    orders: &mut [u16],
) -> Result<(Head, usize), Refusal> {
    change(head, tables, orders, |book, room| {
        book.insert(UserSet(set), room)
    })
}

/// Grant. Refusals: 13, 12, 1, 15, 5, 7, 8, 9, 10.
pub fn grant(
    head: &Head,
    tables: &mut Tables,
    r: u16,
    u: u16,
    orders: &mut [u16],
) -> Result<(Head, usize), Refusal> {
    change(head, tables, orders, |book, room| {
        book.grant(Resource(r), User(u), room)
    })
}

/// Revoke. Refusals: 13, 12, 1, 6, 7, 9, 10.
pub fn revoke(
    head: &Head,
    tables: &mut Tables,
    r: u16,
    u: u16,
    orders: &mut [u16],
) -> Result<(Head, usize), Refusal> {
    change(head, tables, orders, |book, room| {
        book.revoke(Resource(r), User(u), room)
    })
}

/// Leave. Refusals: 13, 12, 1, 15, 7, 9, 10.
pub fn leave(
    head: &Head,
    tables: &mut Tables,
    u: u16,
    orders: &mut [u16],
) -> Result<(Head, usize), Refusal> {
    change(head, tables, orders, |book, room| book.leave(User(u), room))
}

/// View. Refusals: 13, 12, 1.
pub fn view(head: &Head, tables: &Tables, u: u16, r: u16) -> Result<View, Refusal> {
    look(head, tables)?.view(User(u), Resource(r))
}

/// Open. The list takes one number to a row, inner chain first; answers both
/// counts. Refusals: 13, 12, 1, 11, 10.
pub fn open(
    head: &Head,
    tables: &Tables,
    u: u16,
    r: u16,
    list: &mut [u16],
) -> Result<(usize, usize), Refusal> {
    let chains = look(head, tables)?.open(User(u), Resource(r), list.len())?;
    let (inner, rest) = list.split_at_mut(chains.inner.len());
    inner.copy_from_slice(&chains.inner);
    rest[..chains.outer.len()].copy_from_slice(&chains.outer);
    Ok((chains.inner.len(), chains.outer.len()))
}

/// The kind of an order list row that is a row of an inner chain.
pub const ROW_INNER: u16 = 105;
/// The kind of an order list row that is a row of an outer chain.
pub const ROW_OUTER: u16 = 111;

/// A request row as a request; none for a kind that does not exist.
fn request_of(row: &[u64]) -> Option<Request> {
    match row[0] {
        0 => Some(Request::Join),
        1 => Some(Request::Insert(List {
            set: UserSet(row[1]),
            beyond: row[2] != 0,
        })),
        2 => Some(Request::Grant(Resource::given(row[1]), User::given(row[2]))),
        3 => Some(Request::Revoke(
            Resource::given(row[1]),
            User::given(row[2]),
        )),
        4 => Some(Request::Open(User::given(row[1]), Resource::given(row[2]))),
        5 => Some(Request::Leave(User::given(row[1]))),
        _ => None,
    }
}

/// The rows of an answer as they stand in an order list.
fn answer_rows(answer: &Answer) -> Vec<[u16; 3]> {
    match answer {
        Answer::Orders(orders) => orders.iter().map(|order| order.row()).collect(),
        Answer::Chains(chains) => {
            let inner = chains.inner.iter().map(|&row| [ROW_INNER, row, 0]);
            let outer = chains.outer.iter().map(|&row| [ROW_OUTER, row, 0]);
            inner.chain(outer).collect()
        }
    }
}

/// Serves several requests. Request rows are (0, _, _) join; (1, set, b)
/// insert, where b other than 0 says that the list also names a user above
/// 63; (2, r, u) grant; (3, r, u) revoke; (4, u, r) open; (5, u, _) leave.
/// Answer rows are the refusal's number or 0, with 11 the view and else 0, and
/// the count of rows given. Answers the head after all and how many order rows
/// were used. Refusals of the whole call: 13, 12, and 10 if there are fewer
/// answer rows than request rows.
pub fn serve(
    head: &Head,
    tables: &mut Tables,
    requests: &[u64],
    answers: &mut [u16],
    orders: &mut [u16],
) -> Result<(Head, usize), Refusal> {
    let mut book = look(head, tables)?;
    if rows_of(answers) < rows_of(requests) {
        return Err(Refusal::TOO_SHORT);
    }
    let room = rows_of(orders);
    let mut used = 0;
    for (row, cell) in requests.chunks_exact(3).zip(answers.chunks_exact_mut(3)) {
        let result = match request_of(row) {
            Some(request) => book.answer(&request, room - used),
            None => Err(Refusal::NOT_THERE),
        };
        match result {
            Ok(answer) => {
                let rows = answer_rows(&answer);
                for (row, place) in rows.iter().zip(orders[used * 3..].chunks_exact_mut(3)) {
                    place.copy_from_slice(row);
                }
                used += rows.len();
                cell.copy_from_slice(&[0, 0, rows.len() as u16]);
            }
            Err(no) => {
                cell.copy_from_slice(&[u16::from(no.number), u16::from(no.view_number()), 0]);
            }
        }
    }
    tables.store(head, book.book());
    Ok((book.book().head(), used))
}

/// Section `k` of a book, as the stretch of the lent bytes themselves. One
/// cell takes the refusal's number, the other its place, 0 where there is none;
/// a refusal shows an empty stretch. Refusals: what is wrong with the bytes, 1.
pub fn section<'a>(bytes: &'a [u8], k: u16, cell: &mut u16, place: &mut usize) -> &'a [u8] {
    match bytes::section(bytes, k) {
        Ok(stretch) => {
            (*cell, *place) = (0, 0);
            stretch
        }
        Err(no) => {
            (*cell, *place) = (u16::from(no.number), no.place_number());
            &bytes[..0]
        }
    }
}

/// Reads a book into the tables and answers its head. Touches no row past
/// the book's counts. Refusals: 13, then what is wrong with the bytes.
pub fn read(bytes: &[u8], tables: &mut Tables) -> Result<Head, Refusal> {
    tables.long_enough()?;
    let book = bytes::read(bytes)?;
    let book = book.book();
    write_rows(&book.inner_vertices, tables.inner_vertices);
    write_rows(&book.inner_tokens, tables.inner_tokens);
    write_rows(&book.outer_vertices, tables.outer_vertices);
    write_rows(&book.outer_tokens, tables.outer_tokens);
    write_rows(&book.resources, tables.resources);
    Ok(book.head())
}

/// Writes the book to the buffer and answers its length. Refusals: 13, 12,
/// 10.
pub fn write(head: &Head, tables: &Tables, buffer: &mut [u8]) -> Result<usize, Refusal> {
    let book = look(head, tables)?;
    let bytes = bytes::write(book.book());
    let place = buffer.get_mut(..bytes.len()).ok_or(Refusal::TOO_SHORT)?;
    place.copy_from_slice(&bytes);
    Ok(bytes.len())
}

/// Five tables to lend, each exactly as long as its limit asks for.
#[derive(Clone, Debug, PartialEq, Eq)]
pub struct Store {
    /// The tables in the order of the book's sections.
    pub parts: [Vec<u8>; 5],
}

impl Store {
    /// Tables filled with one byte.
    pub fn filled(byte: u8) -> Store {
        Store {
            parts: std::array::from_fn(|k| vec![byte; LIMITS[k] * WIDTHS[k]]),
        }
    }

    /// Tables filled with one byte, then with the book's rows, as far as the
    /// tables go.
    pub fn of(book: &Book, byte: u8) -> Store {
        let mut store = Store::filled(byte);
        write_rows(&book.inner_vertices, &mut store.parts[0]);
        write_rows(&book.inner_tokens, &mut store.parts[1]);
        write_rows(&book.outer_vertices, &mut store.parts[2]);
        write_rows(&book.outer_tokens, &mut store.parts[3]);
        write_rows(&book.resources, &mut store.parts[4]);
        store
    }

    /// Lends them.
    pub fn lend(&mut self) -> Tables<'_> {
        let [inner_vertices, inner_tokens, outer_vertices, outer_tokens, resources] =
            &mut self.parts;
        Tables {
            inner_vertices,
            inner_tokens,
            outer_vertices,
            outer_tokens,
            resources,
        }
    }
}
