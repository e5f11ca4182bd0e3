//! A stand-in for the library: the C interface over the model itself, with
//! faults that can be planted. It shows that the comparison finds nothing
//! where nothing differs, and finds what does.

#![allow(unsafe_code)]

use std::cell::Cell;
use std::slice::from_raw_parts_mut;

use fenstubble_reference::book::{Book, Head, InnerToken, ResourceRow, SoundBook};
use fenstubble_reference::bytes::{
    read, read_rows, sections, write, Version, COUNT_PLACES, LEAVERS_PLACE, VERSION_PLACE, WIDTHS,
};
use fenstubble_reference::lent::Tables;
use fenstubble_reference::numbers::User;
use fenstubble_reference::refusal::Refusal;
use fenstubble_reference::sets::UserSet;
use fenstubble_reference::sound::limited;

use crate::model::{head_of, list_of, Model};
use crate::shrink::{head_in, version_in, Loose};
use crate::side::{Call, Given, Lending, Side, SET};

/// What is wrong with the stand-in.
#[derive(Clone, Copy, Debug, PartialEq, Eq)]
pub enum Fault {
    /// Nothing.
    None,
    /// Refused calls with tables change a byte of them.
    TableOnRefusal,
    /// A refused call of that name puts 0 into its cell of that number.
    ZeroedCell(&'static str, usize),
    /// 12 stands before 13.
    WrongNumber,
    /// A section starts one byte late.
    LateSection,
    /// Reading clears a byte past the lent end of the last table.
    PastTheEnd,
    /// Reading clears the row after the last one used.
    UnusedRow,
    /// Reading and checking forget the last count of the head.
    HeadForgotten,
    /// Writing says one byte too many.
    WrongLength,
    /// Writing clears the byte after the last one written.
    PastTheAnswer,
    /// Books with three resources or more are not read.
    FewResources,
    /// Requests give one order row too many.
    WrongCount,
    /// Requests clear the list number after the last one given.
    PastTheRows,
    /// A grant leaves the last row of the orders wrong.
    LastRow,
    /// A grant's token goes up before anything is locked.
    PublishedFirst,
    /// A grant locks its own folder before the neighbours.
    OwnLockFirst,
    /// An insert's folder is encrypted before it is locked.
    EncryptedFirst,
    /// A revoke leaves the head as it was.
    HeadKept,
    /// 11 comes without its view.
    ViewLost,
    /// Views 1 and 2 are taken for one another.
    ViewsSwapped,
    /// The two counts of an open are taken for one another.
    ChainsSwapped,
    /// Something is kept between calls: every 300th with tables gets 13.
    Every300th,
    /// Serving ends after the first request.
    FirstAlone,
    /// Serving forgets the rows of an open.
    OpenUnused,
    /// A list of one byte less than a set's is taken.
    ShortSet,
    /// A byte past those of a set names users too, who did not join.
    LongSet,
    /// An insert clears the last byte of its list.
    SetCleared,
    /// The place told with that number is one row late.
    LateRow(u8),
    /// Of two equal rows the earlier one is told, with that number.
    EarlierRow(u8),
    /// A token into an own vertex comes before a missing vertex.
    TokenFirst,
    /// The length is judged before the counts.
    LengthFirst,
    /// The last count over its limit is told.
    LastCount,
    /// S1 is judged by sets and lists first, then by numbers and kinds.
    SetsFirst,
    /// S6 is judged by equal rows last.
    EqualLast,
    /// A group that is not made of what leads to it is told by a token.
    TokenOfGroup,
    /// A call of that name with that result leaves the cell for the place as it
    /// was.
    PlaceKept(&'static str, u16),
    /// A place is cut to 16 bits.
    PlaceCut,
    /// Only the two lowest bytes of a place are written.
    PlaceHalf,
    /// A leave takes the user off the first list alone.
    FirstList,
    /// A leave takes the user off the lists from the last to the first.
    LastListFirst,
    /// A leave takes the user off one list after the other; where one is
    /// refused, it ends there, and what it did stays.
    ListByList,
    /// The same, but what it did is taken back: the number is that of the list.
    NumberByList,
    /// A leave does not note who has left.
    LeaverForgotten,
    /// A second leave is accepted.
    LeaveAgain,
    /// A join takes the number of the first who has left.
    NumberAgain,
    /// A request of that name lets leavers in again.
    LeaverBack(&'static str),
    /// 15 stands before 1, in requests of that name.
    FifteenFirst(&'static str),
    /// 15 stands behind all others, in requests of that name.
    FifteenLast(&'static str),
    /// A leave among several is refused where its third number is not 0.
    ThirdNumber,
    /// A head without the set of leavers is taken.
    SevenNumbers,
    /// Version 1 is not read.
    OldRefused,
    /// Reading version 1 leaves the leavers in the head as they were.
    OldLeaversKept,
    /// Places in version 1 are told by the layout of version 2.
    OldPlaces,
    /// A book that nobody has left is written as version 1.
    WritesOld,
    /// A leaver on a list is told at the set of leavers.
    LeaverAtSet,
    /// The set of leavers is judged behind all rows.
    LeaversLast,
}

thread_local! {
    static FAULT: Cell<Fault> = const { Cell::new(Fault::None) };
    static CALLS: Cell<u32> = const { Cell::new(0) };
}

/// Plants the fault, for this thread, in place of the one before.
pub fn plant(fault: Fault) {
    FAULT.set(fault);
}

fn planted(fault: Fault) -> bool {
    FAULT.get() == fault
}

/// # Safety
/// As for [`from_raw_parts_mut`].
unsafe fn slice<'a, T>(start: *const T, length: usize) -> &'a mut [T] {
    from_raw_parts_mut(start.cast_mut(), length)
}

/// Makes the call on the model: the result, the cells of an accepted one, and
/// the place.
fn placed(call: Call, lent: &mut Lending) -> (u16, [usize; 2], usize) {
    if !matches!(call, Call::Section(_)) {
        CALLS.set(CALLS.get() + 1);
        if planted(Fault::Every300th) && CALLS.get().is_multiple_of(300) {
            return (13, [0, 0], 0);
        }
    }
    match Model::make(call, lent) {
        Ok(Ok(given)) => {
            let cells = match given {
                Given::Nothing => [0, 0],
                Given::Stretch(a, b) => [a, b],
                Given::Length(a) | Given::Used(a) => [a, 0],
                Given::Orders(a) | Given::View(a) => [a.into(), 0],
                Given::Chains(a, b) => [a.into(), b.into()],
            };
            (0, cells, 0)
        }
        Ok(Err(no)) => {
            let view = u16::from(no.view_number());
            let view = if planted(Fault::ViewLost) { 0 } else { view };
            let no = no.place.map_or(no, |_| misplaced(lent.book, no));
            (u16::from(no.number) + 256 * view, [0, 0], no.place_number())
        }
        Err(odd) => (odd.code, [0, 0], 0),
    }
}

/// The same without the place.
fn reply(call: Call, lent: &mut Lending) -> (u16, [usize; 2]) {
    let (code, cells, _) = placed(call, lent);
    (code, cells)
}

/// Puts the place into its cell.
fn put_place(call: Call, code: u16, cell: &mut usize, place: usize) {
    if planted(Fault::PlaceHalf) {
        *cell = *cell & !0xFFFF | place & 0xFFFF;
    } else if !planted(Fault::PlaceKept(call.name(), code)) {
        *cell = place;
    }
}

/// The refusal of a book's bytes with the fault that is planted.
fn misplaced(bytes: &[u8], no: Refusal) -> Refusal {
    elsewhere(bytes, no.number, no.place_number()).unwrap_or(no)
}

/// What is told in the place of 31 to 38 where leavers and versions are looked
/// at otherwise, if anything.
fn elsewhere_by_version(bytes: &[u8], place: usize) -> Option<usize> {
    let book = Loose::of(bytes)?.book;
    let folders = sections(&book.head(), version_in(bytes))[4].start;
    match FAULT.get() {
        Fault::OldPlaces if version_in(bytes) == Version::One && place != 65535 => Some(place + 8),
        Fault::LeaverAtSet if place >= folders && place != 65535 => {
            let row = book.resources.get((place - folders) / WIDTHS[4])?;
            let named = row.list.common(book.leavers);
            (!named.is_empty()).then_some(LEAVERS_PLACE)
        }
        Fault::LeaversLast if place == LEAVERS_PLACE && !book.leavers.within(book.joined()) => {
            let mut other = book.clone();
            other.leavers = book.leavers.common(book.joined());
            let fault = read(&write(&other)).err()?;
            (fault.number() == 31).then_some(fault.place())
        }
        _ => None,
    }
}

/// What is told in the place of that number and place, if anything.
fn elsewhere(bytes: &[u8], number: u8, place: usize) -> Option<Refusal> {
    if let (31..=38, Some(place)) = (number, elsewhere_by_version(bytes, place)) {
        return Some(Refusal::misread(number, place));
    }
    match number {
        _ if planted(Fault::PlaceCut) => Some(Refusal::misread(number, place % 65536)),
        23 => other_count(bytes),
        31..=38 => {
            let book = Loose::of(bytes)?.book;
            let starts = sections(&book.head(), version_in(bytes)).map(|section| section.start);
            let k = (0..5).rfind(|&k| starts[k] <= place)?;
            let row = (place - starts[k]) / WIDTHS[k];
            let (k, row) = match (FAULT.get(), place) {
                (Fault::LateRow(late), 0..65535) if late == number => (k, row + 1),
                (Fault::EarlierRow(early), _) if early == number => {
                    let section = &bytes[starts[k]..];
                    let mut rows = section.chunks(WIDTHS[k]).take(row);
                    (
                        k,
                        rows.position(|one| section[row * WIDTHS[k]..].starts_with(one))?,
                    )
                }
                _ => other_row(&book, number, place, (k, row))?,
            };
            Some(Refusal::misread(number, starts[k] + row * WIDTHS[k]))
        }
        _ => None,
    }
}

/// What is told in the place of the first count over its limit, if anything.
fn other_count(bytes: &[u8]) -> Option<Refusal> {
    match FAULT.get() {
        Fault::LengthFirst if Loose::of(bytes).is_none_or(|loose| loose.has_tail()) => {
            Some(Refusal::misread(24, bytes.len()))
        }
        Fault::LastCount => {
            let counts = limited(&head_in(bytes));
            let last = counts.iter().rposition(|one| one.count > one.most)?;
            Some(Refusal::misread(23, COUNT_PLACES[last]))
        }
        _ => None,
    }
}

/// The section and row told in the place of those, if any.
fn other_row(
    book: &Book,
    number: u8,
    place: usize,
    (k, row): (usize, usize),
) -> Option<(usize, usize)> {
    let (inner, outer) = (&book.inner_tokens, &book.outer_tokens);
    let sets = &book.inner_vertices;
    match (FAULT.get(), number, place) {
        (Fault::TokenFirst, 32, 65535) => {
            let enters = |one: &InnerToken| one.kind == 0 && sets[one.to.index()].size() == 1;
            Some((1, inner.iter().position(enters)?))
        }
        (Fault::SetsFirst, 31, _) => {
            let strange = |set: &UserSet| !set.within(book.joined());
            let first = |sets: &[UserSet]| sets.iter().position(strange);
            let list = || book.resources.iter().position(|one| strange(&one.list));
            let vertex = first(sets).map(|row| (0, row));
            let vertex = vertex.or_else(|| Some((2, first(&book.outer_vertices)?)));
            vertex.or_else(|| Some((4, list()?)))
        }
        (Fault::EqualLast, 36, _) => {
            let shut = |one: &InnerToken| {
                let [from, to] = [one.from, one.to].map(|end| sets[end.index()]);
                one.kind == 1 && (from.size() != 1 || from.within(to))
            };
            Some((1, inner.iter().position(shut)?))
        }
        (Fault::TokenOfGroup, 35, _) => match k {
            0 => Some((1, inner.iter().position(|one| one.to.index() == row)?)),
            _ => Some((3, outer.iter().position(|one| one.to.index() == row)?)),
        },
        _ => None,
    }
}

/// The faults of every call with tables.
fn touched(code: u16, tables: &mut Tables) -> u16 {
    if code == 0 {
        return code;
    }
    if planted(Fault::TableOnRefusal) {
        if let Some(byte) = tables.outer_tokens.last_mut() {
            *byte ^= 1;
        }
    }
    if code == 13 && planted(Fault::WrongNumber) {
        return 12;
    }
    code
}

/// Puts the numbers into the call's cells; a refusal leaves them alone, unless
/// that is its fault.
fn put<T: Default + TryFrom<usize>>(call: Call, code: u16, cells: &mut [(&mut T, usize)]) {
    for (at, (cell, number)) in cells.iter_mut().enumerate() {
        if code == 0 {
            **cell = T::try_from(*number).unwrap_or_default();
        } else if planted(Fault::ZeroedCell(call.name(), at)) {
            **cell = T::default();
        }
    }
}

/// Nothing lent.
fn nothing<'a>() -> Lending<'a> {
    Lending {
        head: &mut [],
        tables: Tables {
            inner_vertices: &mut [],
            inner_tokens: &mut [],
            outer_vertices: &mut [],
            outer_tokens: &mut [],
            resources: &mut [],
        },
        book: &mut [],
        buffer: &mut [],
        list: &mut [],
        set: &mut [],
        requests: &mut [],
        answers: &mut [],
    }
}

/// A head; one without leavers is taken for one that nobody has left, if that is
/// the fault.
///
/// # Safety
/// As for [`from_raw_parts_mut`].
unsafe fn head_slice<'a>(start: *const u16, length: usize) -> &'a mut [u16] {
    let head = slice(start, length);
    if planted(Fault::SevenNumbers) && (7..Head::NUMBERS).contains(&length) {
        let mut whole = head.to_vec();
        whole.resize(7, 0);
        whole.resize(Head::NUMBERS, 0);
        return Vec::leak(whole);
    }
    head
}

/// A C function whose head and five tables are lent under one name.
macro_rules! with_tables {
    (fn $name:ident($($before:ident: $before_type:ty),*; $pointer:tt $lent:ident; $($after:ident: $after_type:ty),*) $body:block) => {
        #[no_mangle]
        unsafe extern "C" fn $name(
            $($before: $before_type,)*
            head: *$pointer u16, head_len: usize,
            inner_vertices: *$pointer u8, inner_vertices_len: usize,
            inner_tokens: *$pointer u8, inner_tokens_len: usize,
            outer_vertices: *$pointer u8, outer_vertices_len: usize,
            outer_tokens: *$pointer u8, outer_tokens_len: usize,
            resources: *$pointer u8, resources_len: usize,
            $($after: $after_type),*
        ) -> u16 {
            let $lent = &mut Lending {
                head: head_slice(head, head_len),
                tables: Tables {
                    inner_vertices: slice(inner_vertices, inner_vertices_len),
                    inner_tokens: slice(inner_tokens, inner_tokens_len),
                    outer_vertices: slice(outer_vertices, outer_vertices_len),
                    outer_tokens: slice(outer_tokens, outer_tokens_len),
                    resources: slice(resources, resources_len),
                },
                ..nothing()
            };
            let code = $body;
            touched(code, &mut $lent.tables)
        }
    };
}

with_tables! {
    fn fenstubble_check(; const lent;) {
        if planted(Fault::HeadForgotten) && lent.head.len() == Head::NUMBERS {
            lent.head[6] = 0;
        }
        reply(Call::Check, lent).0
    }
}

#[no_mangle]
extern "C" fn fenstubble_version() -> u32 {
    40000
}

#[no_mangle]
unsafe extern "C" fn fenstubble_section(
    book: *const u8,
    book_len: usize,
    k: usize,
    start: *mut usize,
    length: *mut usize,
    place: *mut usize,
) -> u16 {
    let lent = &mut Lending {
        book: slice(book, book_len),
        ..nothing()
    };
    let call = Call::Section(k);
    let (code, [from, count], at) = placed(call, lent);
    let from = from + usize::from(planted(Fault::LateSection));
    put_place(call, code, &mut *place, at);
    put(
        call,
        code,
        &mut [(&mut *start, from), (&mut *length, count)],
    );
    code
}

with_tables! {
    fn fenstubble_read(book: *const u8, book_len: usize; mut lent; place: *mut usize) {
        lent.book = slice(book, book_len);
        let many = |book: SoundBook| book.book().resources.len() > 2;
        if planted(Fault::FewResources) && read(lent.book).is_ok_and(many) {
            // 13 still comes first.
            *place = 0;
            return reply(Call::Check, lent).0.max(12);
        }
        let old = book_len > VERSION_PLACE && lent.book[VERSION_PLACE] == 1;
        let before = lent.head.to_vec();
        let (mut code, _, mut at) = placed(Call::Read, lent);
        if code == 0 && old && planted(Fault::OldLeaversKept) {
            lent.head[7..Head::NUMBERS].copy_from_slice(&before[7..Head::NUMBERS]);
        }
        if code == 0 && old && planted(Fault::OldRefused) {
            (code, at) = (21, VERSION_PLACE);
        }
        put_place(Call::Read, code, &mut *place, at);
        let tables = &mut lent.tables;
        if code == 0 && planted(Fault::HeadForgotten) {
            lent.head[6] = 0;
        }
        if code == 0 && planted(Fault::UnusedRow) {
            let row = usize::from(lent.head[3]) * 8;
            if let Some(row) = tables.inner_vertices.get_mut(row..row + 8) {
                row.fill(0);
            }
        }
        if code == 0 && planted(Fault::PastTheEnd) {
            *tables.resources.as_mut_ptr().add(tables.resources.len()) = 0;
        }
        code
    }
}

with_tables! {
    fn fenstubble_write(; const lent; buffer: *mut u8, buffer_len: usize, length: *mut usize) {
        lent.buffer = slice(buffer, buffer_len);
        let (code, [mut given, _]) = reply(Call::Write, lent);
        if code == 0 && planted(Fault::WritesOld) && lent.head[7..Head::NUMBERS] == [0; 4] {
            lent.buffer[VERSION_PLACE] = 1;
            lent.buffer.copy_within(Version::Two.leavers().end..given, LEAVERS_PLACE);
            given -= 8;
        }
        let told = given + usize::from(planted(Fault::WrongLength));
        put(Call::Write, code, &mut [(&mut *length, told)]);
        if code == 0 && planted(Fault::PastTheAnswer) {
            *lent.buffer.as_mut_ptr().add(given) = 0;
        }
        code
    }
}

/// Head and tables, and the order list behind so many rows.
fn rest<'a>(lent: &'a mut Lending, rows: usize) -> Lending<'a> {
    let tables = &mut lent.tables;
    Lending {
        head: &mut *lent.head,
        tables: Tables {
            inner_vertices: &mut *tables.inner_vertices,
            inner_tokens: &mut *tables.inner_tokens,
            outer_vertices: &mut *tables.outer_vertices,
            outer_tokens: &mut *tables.outer_tokens,
            resources: &mut *tables.resources,
        },
        list: &mut lent.list[3 * rows..],
        set: &mut *lent.set,
        ..nothing()
    }
}

/// What a call that may be taken back can have changed.
fn kept(lent: &Lending) -> [Vec<u8>; 7] {
    let numbers = |numbers: &[u16]| numbers.iter().flat_map(|n| n.to_le_bytes()).collect();
    let tables = &lent.tables;
    [
        numbers(lent.head),
        tables.inner_vertices.to_vec(),
        tables.inner_tokens.to_vec(),
        tables.outer_vertices.to_vec(),
        tables.outer_tokens.to_vec(),
        tables.resources.to_vec(),
        numbers(lent.list),
    ]
}

fn take_back(lent: &mut Lending, kept: &[Vec<u8>; 7]) {
    fn numbers(from: &[u8], to: &mut [u16]) {
        for (two, number) in from.chunks_exact(2).zip(to) {
            *number = u16::from_le_bytes([two[0], two[1]]);
        }
    }
    let tables = &mut lent.tables;
    numbers(&kept[0], lent.head);
    tables.inner_vertices.copy_from_slice(&kept[1]);
    tables.inner_tokens.copy_from_slice(&kept[2]);
    tables.outer_vertices.copy_from_slice(&kept[3]);
    tables.outer_tokens.copy_from_slice(&kept[4]);
    tables.resources.copy_from_slice(&kept[5]);
    numbers(&kept[6], lent.list);
}

/// Puts the set of leavers into the head.
fn put_leavers(lent: &mut Lending, leavers: UserSet) {
    if let Ok(head) = head_of(lent.head) {
        let head = Head { leavers, ..head };
        lent.head[..Head::NUMBERS].copy_from_slice(&head.numbers());
    }
}

/// The reply to a request with the fault that is planted, where it is one about
/// leavers and the tables hold a sound book.
fn misled(call: Call, lent: &mut Lending) -> Option<(u16, [usize; 2])> {
    let fault = FAULT.get();
    let head = head_of(lent.head).ok()?;
    if fault == Fault::None || reply(Call::Check, lent).0 != 0 {
        return None;
    }
    let folders = usize::from(head.resources);
    let folders: Vec<ResourceRow> = read_rows(&lent.tables.resources[..folders * WIDTHS[4]]);
    let joined = UserSet::first(head.users);
    let list = list_of(lent.set).map_or(UserSet::EMPTY, UserSet);
    // Whom the request names, and whether there is another number that is none.
    let (named, strange) = match call {
        Call::Grant(r, u) => (UserSet::alone(User(u)), usize::from(r) >= folders.len()),
        Call::Insert(..) => (list, !list.within(joined)),
        Call::Leave(u) => (UserSet::alone(User(u)), false),
        Call::Join => (UserSet::EMPTY, false),
        _ => return None,
    };
    let left = named.common(head.leavers);
    match (fault, call) {
        (Fault::NumberAgain, Call::Join) if !head.leavers.is_empty() => {
            let first = head.leavers.users().next()?;
            put_leavers(lent, head.leavers.without(first));
            Some((0, [0, 0]))
        }
        (Fault::LeaveAgain, Call::Leave(_)) if !left.is_empty() => Some((0, [0, 0])),
        (Fault::LeaverForgotten, Call::Leave(_)) => {
            let replied = reply(call, lent);
            put_leavers(lent, head.leavers);
            Some(replied)
        }
        (Fault::FifteenFirst(name), _) if name == call.name() && !left.is_empty() && strange => {
            Some((15, [0, 0]))
        }
        (Fault::LeaverBack(name), _) if name == call.name() && !left.is_empty() && !strange => {
            let before = kept(lent);
            put_leavers(lent, head.leavers.minus(left));
            let (code, cells) = reply(call, lent);
            if code != 0 {
                take_back(lent, &before);
            }
            Some((code, cells))
        }
        (Fault::FifteenLast(name), _) if name == call.name() && !left.is_empty() && !strange => {
            let before = kept(lent);
            put_leavers(lent, head.leavers.minus(left));
            let (code, _) = reply(call, lent);
            take_back(lent, &before);
            Some((if code == 0 { 15 } else { code }, [0, 0]))
        }
        (
            Fault::FirstList | Fault::LastListFirst | Fault::ListByList | Fault::NumberByList,
            Call::Leave(u),
        ) if left.is_empty() && named.within(joined) && !named.is_empty() => {
            let before = kept(lent);
            let mut lists: Vec<u16> = (0..head.resources)
                .filter(|&r| folders[usize::from(r)].list.names(User(u)))
                .collect();
            match fault {
                Fault::FirstList => lists.truncate(1),
                Fault::LastListFirst => lists.reverse(),
                _ => {}
            }
            let mut used = 0;
            for r in lists {
                let (code, [rows, _]) = reply(Call::Revoke(r, u), &mut rest(lent, used));
                if code != 0 {
                    if fault != Fault::ListByList {
                        take_back(lent, &before);
                    }
                    // Of 10 only the whole can tell.
                    let whole = fault == Fault::NumberByList && code == 10;
                    return (!whole).then_some((code, [0, 0]));
                }
                used += rows;
            }
            put_leavers(lent, head.leavers.union(named));
            Some((0, [used, 0]))
        }
        _ => None,
    }
}

/// A request that changes the book, and its faults.
fn ordered(call: Call, lent: &mut Lending, count: &mut u16) -> u16 {
    let misled = misled(call, lent);
    let (code, [rows, _]) = misled.unwrap_or_else(|| reply(call, lent));
    let told = rows + usize::from(planted(Fault::WrongCount));
    put(call, code, &mut [(count, told)]);
    if code == 0 && planted(Fault::PastTheRows) {
        if let Some(number) = lent.list.get_mut(rows * 3) {
            *number = 0;
        }
    }
    if code == 0 {
        let (orders, _) = lent.list.as_chunks_mut();
        misplace_orders(call, &mut orders[..rows]);
    }
    code
}

/// Puts the orders as the fault that is planted has them.
fn misplace_orders(call: Call, orders: &mut [[u16; 3]]) {
    match (FAULT.get(), call) {
        (Fault::PublishedFirst, Call::Grant(..)) => orders.sort_by_key(|row| row[0] != 6),
        (Fault::OwnLockFirst, Call::Grant(r, _)) => {
            let lock = orders.iter().position(|row| row[..2] == [3, r]);
            let others = |row: &[u16; 3]| row[0] == 3 && row[1] != r;
            if let (Some(lock), Some(last)) = (lock, orders.iter().rposition(others)) {
                orders[..=lock].rotate_left(last + 1);
            }
        }
        (Fault::EncryptedFirst, Call::Insert(..)) => {
            // Behind the inner vertex and its tokens.
            orders.sort_by_key(|row| match row[0] {
                4 | 5 => 0,
                7 => 1,
                _ => 2,
            });
        }
        _ => {}
    }
}

with_tables! {
    fn fenstubble_join(; mut lent; orders: *mut u16, orders_len: usize, count: *mut u16) {
        lent.list = slice(orders, orders_len);
        ordered(Call::Join, lent, &mut *count)
    }
}

with_tables! {
    fn fenstubble_insert(; mut lent; orders: *mut u16, orders_len: usize, count: *mut u16, list: *const u8, list_len: usize) {
        lent.list = slice(orders, orders_len);
        lent.set = slice(list, list_len);
        if list_len + 1 == SET && planted(Fault::ShortSet) {
            lent.set = Vec::leak([&*lent.set, &[0]].concat());
        }
        let call = Call::insert(0);
        if planted(Fault::LongSet) && lent.set.iter().skip(SET).any(|&byte| byte != 0) {
            put(call, 1, &mut [(&mut *count, 0)]);
            return 1;
        }
        let code = ordered(call, lent, &mut *count);
        if planted(Fault::SetCleared) {
            if let Some(byte) = lent.set.last_mut() {
                *byte = 0;
            }
        }
        code
    }
}

with_tables! {
    fn fenstubble_grant(; mut lent; orders: *mut u16, orders_len: usize, count: *mut u16, resource: u16, user: u16) {
        lent.list = slice(orders, orders_len);
        let code = ordered(Call::Grant(resource, user), lent, &mut *count);
        if code == 0 && planted(Fault::LastRow) {
            lent.list[usize::from(*count) * 3 - 1] ^= 1;
        }
        code
    }
}

with_tables! {
    fn fenstubble_revoke(; mut lent; orders: *mut u16, orders_len: usize, count: *mut u16, resource: u16, user: u16) {
        lent.list = slice(orders, orders_len);
        let before = lent.head.to_vec();
        let code = ordered(Call::Revoke(resource, user), lent, &mut *count);
        if planted(Fault::HeadKept) {
            lent.head.copy_from_slice(&before);
        }
        code
    }
}

with_tables! {
    fn fenstubble_leave(; mut lent; orders: *mut u16, orders_len: usize, count: *mut u16, user: u16) {
        lent.list = slice(orders, orders_len);
        ordered(Call::Leave(user), lent, &mut *count)
    }
}

with_tables! {
    fn fenstubble_view(; const lent; user: u16, resource: u16, view: *mut u16) {
        let call = Call::View(user, resource);
        let (code, [number, _]) = reply(call, lent);
        let number = match number {
            1 | 2 if planted(Fault::ViewsSwapped) => 3 - number,
            _ => number,
        };
        put(call, code, &mut [(&mut *view, number)]);
        code
    }
}

with_tables! {
    fn fenstubble_open(; const lent; user: u16, resource: u16, list: *mut u16, list_len: usize, inner: *mut u16, outer: *mut u16) {
        lent.list = slice(list, list_len);
        let call = Call::Open(user, resource);
        let (code, [a, b]) = reply(call, lent);
        let (a, b) = if planted(Fault::ChainsSwapped) { (b, a) } else { (a, b) };
        put(call, code, &mut [(&mut *inner, a), (&mut *outer, b)]);
        code
    }
}

with_tables! {
    fn fenstubble_serve(; mut lent; requests: *const u64, requests_len: usize, answers: *mut u16, answers_len: usize, orders: *mut u16, orders_len: usize, used: *mut usize) {
        let served = if planted(Fault::FirstAlone) { requests_len.min(3) } else { requests_len };
        lent.requests = slice(requests, served);
        if planted(Fault::ThirdNumber) {
            lent.requests = Vec::leak(lent.requests.to_vec());
            for row in lent.requests.chunks_exact_mut(3) {
                if row[0] == 5 && row[2] != 0 {
                    row[0] = 6;
                }
            }
        }
        lent.answers = slice(answers, answers_len);
        lent.list = slice(orders, orders_len);
        let (code, [rows, _]) = reply(Call::Serve, lent);
        let mut told = rows;
        if code == 0 && planted(Fault::OpenUnused) {
            told -= lent.list.chunks_exact(3).take(rows).filter(|row| row[0] > 7).count();
        }
        put(Call::Serve, code, &mut [(&mut *used, told)]);
        code
    }
}
