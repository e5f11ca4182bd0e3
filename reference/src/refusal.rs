//! The numbers of a no, with a view or a place, and the views.

use std::fmt;

/// What of a folder a user knows.
#[derive(Clone, Copy, Debug, PartialEq, Eq)]
pub enum View {
    /// 0: both keys.
    Open,
    /// 1: the inner key only.
    SelLocked,
    /// 2: the outer key only.
    BelLocked,
    /// 3: neither.
    Locked,
}

impl View {
    /// The view of someone who knows, or does not know, the two keys.
    pub fn of(inner_known: bool, outer_known: bool) -> View {
        match (inner_known, outer_known) {
            (true, true) => View::Open,
            (true, false) => View::SelLocked,
            (false, true) => View::BelLocked,
            (false, false) => View::Locked,
        }
    }

    /// Its number, 0 to 3.
    pub fn number(self) -> u8 {
        match self {
            View::Open => 0,
            View::SelLocked => 1,
            View::BelLocked => 2,
            View::Locked => 3,
        }
    }
}

/// A call said no and changed nothing.
#[derive(Clone, Copy, Debug, PartialEq, Eq)]
pub struct Refusal {
    /// The number: 1 to 15, 20 to 24, 31 to 38.
    pub number: u8,
    /// With 11, the view.
    pub view: Option<View>,
    /// From 20 on, the place.
    pub place: Option<usize>,
}

impl Refusal {
    /// 1: a number does not exist, or a list names someone not joined.
    pub const NOT_THERE: Refusal = Refusal::no(1);
    /// 2: join at 64 users.
    pub const USERS_FULL: Refusal = Refusal::no(2);
    /// 3: insert at 256 resources.
    pub const RESOURCES_FULL: Refusal = Refusal::no(3);
    /// 4: insert with an empty list.
    pub const EMPTY_LIST: Refusal = Refusal::no(4);
    /// 5: grant to someone listed.
    pub const LISTED: Refusal = Refusal::no(5);
    /// 6: revoke from someone not listed.
    pub const NOT_LISTED: Refusal = Refusal::no(6);
    /// 7: too many outer group vertices.
    pub const OUTER_GROUPS_FULL: Refusal = Refusal::no(7);
    /// 8: too many inner tokens.
    pub const INNER_TOKENS_FULL: Refusal = Refusal::no(8);
    /// 9: too many outer tokens.
    pub const OUTER_TOKENS_FULL: Refusal = Refusal::no(9);
    /// 10: the list or buffer lent for the answer is too short.
    pub const TOO_SHORT: Refusal = Refusal::no(10);
    /// 12: tables without a sound book.
    pub const UNSOUND: Refusal = Refusal::no(12);
    /// 13: a lent table is shorter than its limit.
    pub const TABLE_SHORT: Refusal = Refusal::no(13);
    /// 14: a request line is malformed.
    pub const MALFORMED: Refusal = Refusal::no(14);
    /// 15: someone who has left is to be listed, or to leave again.
    pub const HAS_LEFT: Refusal = Refusal::no(15);

    const fn no(number: u8) -> Refusal {
        Refusal {
            number,
            view: None,
            place: None,
        }
    }

    /// 11: open with a view other than open.
    pub const fn closed(view: View) -> Refusal {
        Refusal {
            view: Some(view),
            ..Refusal::no(11)
        }
    }

    /// 20 to 24 and 31 to 38: bytes that are no book, wrong at that place.
    pub const fn misread(number: u8, place: usize) -> Refusal {
        Refusal {
            place: Some(place),
            ..Refusal::no(number)
        }
    }

    /// The view's number, 0 where there is none.
    pub fn view_number(self) -> u8 {
        self.view.map_or(0, View::number)
    }

    /// The place, 0 where there is none.
    pub fn place_number(self) -> usize {
        self.place.unwrap_or(0)
    }
}

impl fmt::Display for Refusal {
    fn fmt(&self, f: &mut fmt::Formatter<'_>) -> fmt::Result {
        write!(f, "no {}", self.number)?;
        if let Some(view) = self.view {
            write!(f, " {}", view.number())?;
        }
        if let Some(place) = self.place {
            write!(f, " {place}")?;
        }
        Ok(())
    }
}

impl std::error::Error for Refusal {}
