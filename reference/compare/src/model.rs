//! The reference program's lent face in the shape of the C interface: the
//! head is lent numbers, a list is lent bytes, a section is a start and a
//! length.

use fenstubble_reference::book::Head;
use fenstubble_reference::lent;
use fenstubble_reference::refusal::Refusal;

use crate::side::{Answer, Call, Given, Lending, Side};

/// The head from its numbers. Refusal 13 if there are fewer than it has.
pub fn head_of(numbers: &[u16]) -> Result<Head, Refusal> {
    match numbers.first_chunk() {
        Some(numbers) => Ok(Head::from_numbers(numbers)),
        None => Err(Refusal::TABLE_SHORT),
    }
}

/// The list in the bytes of a set, user 0 the lowest bit of the first; those
/// past them do not count. Refusal 13 if there are fewer.
pub fn list_of(bytes: &[u8]) -> Result<u64, Refusal> {
    match bytes.first_chunk() {
        Some(set) => Ok(u64::from_le_bytes(*set)),
        None => Err(Refusal::TABLE_SHORT),
    }
}

/// The model's side.
#[derive(Clone, Copy, Debug)]
pub struct Model;

impl Side for Model {
    fn make(call: Call, lent: &mut Lending) -> Answer {
        Ok(make(call, lent))
    }
}

fn make(call: Call, lent: &mut Lending) -> Result<Given, Refusal> {
    // A section alone takes no head.
    let before = head_of(lent.head);
    let tables = &mut lent.tables;
    let list = &mut *lent.list;
    let (after, given) = match call {
        Call::Check => match lent::broken_rule(&before?, tables)? {
            None => return Ok(Given::Nothing),
            Some(_) => return Err(Refusal::UNSOUND),
        },
        Call::Section(k) => return section(lent.book, k),
        Call::Write => return lent::write(&before?, tables, lent.buffer).map(Given::Length),
        Call::View(u, r) => {
            let view = lent::view(&before?, tables, u, r)?;
            return Ok(Given::View(view.number().into()));
        }
        Call::Open(u, r) => {
            // A chain has at most 63 rows.
            let (inner, outer) = lent::open(&before?, tables, u, r, list)?;
            return Ok(Given::Chains(inner as u16, outer as u16));
        }
        Call::Read => {
            before?;
            (lent::read(lent.book, tables)?, Given::Nothing)
        }
        Call::Join => ordered(lent::join(&before?, tables, list)?),
        Call::Insert(..) => ordered(lent::insert(&before?, tables, list_of(lent.set)?, list)?),
        Call::Grant(r, u) => ordered(lent::grant(&before?, tables, r, u, list)?),
        Call::Revoke(r, u) => ordered(lent::revoke(&before?, tables, r, u, list)?),
        Call::Leave(u) => ordered(lent::leave(&before?, tables, u, list)?),
        Call::Serve => {
            let (after, used) = lent::serve(&before?, tables, lent.requests, lent.answers, list)?;
            (after, Given::Used(used))
        }
    };
    lent.head[..Head::NUMBERS].copy_from_slice(&after.numbers());
    Ok(given)
}

/// The count fits: no request gives more than some thousand orders.
fn ordered((after, count): (Head, usize)) -> (Head, Given) {
    (after, Given::Orders(count as u16))
}

fn section(book: &[u8], k: usize) -> Result<Given, Refusal> {
    // Numbers above 65535 are those of no section, like 65535.
    let k = u16::try_from(k).unwrap_or(u16::MAX);
    let (mut cell, mut place) = (0, 0);
    let stretch = lent::section(book, k, &mut cell, &mut place);
    let start = stretch.as_ptr().addr() - book.as_ptr().addr();
    match cell {
        0 => Ok(Given::Stretch(start, stretch.len())),
        1 => Err(Refusal::NOT_THERE),
        // No number is above 255.
        number => Err(Refusal::misread(number as u8, place)),
    }
}
