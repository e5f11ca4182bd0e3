//! Sets of users: 64 bits, bit i for user i.

use crate::numbers::User;

/// A set of users.
#[derive(Clone, Copy, Debug, Default, PartialEq, Eq, PartialOrd, Ord, Hash)]
pub struct UserSet(pub u64);

impl UserSet {
    /// Nobody.
    pub const EMPTY: UserSet = UserSet(0);

    /// The user alone. A number above 63 gives the empty set: no such user
    /// can be in any set.
    pub fn alone(user: User) -> UserSet {
        if user.0 < 64 {
            UserSet(1 << user.0)
        } else {
            UserSet::EMPTY
        }
    }

    /// The users 0 to `count` - 1; all 64 for larger counts.
    pub fn first(count: u16) -> UserSet {
        if count < 64 {
            UserSet((1 << count) - 1)
        } else {
            UserSet(u64::MAX)
        }
    }

    /// Whether the set names the user.
    pub fn names(self, user: User) -> bool {
        user.0 < 64 && self.0 >> user.0 & 1 == 1
    }

    /// The set and the user.
    #[must_use]
    pub fn with(self, user: User) -> UserSet {
        self.union(UserSet::alone(user))
    }

    /// The set without the user.
    #[must_use]
    pub fn without(self, user: User) -> UserSet {
        self.minus(UserSet::alone(user))
    }

    /// The users of either set.
    #[must_use]
    pub fn union(self, other: UserSet) -> UserSet {
        UserSet(self.0 | other.0)
    }

    /// The users of both sets.
    #[must_use]
    pub fn common(self, other: UserSet) -> UserSet {
        UserSet(self.0 & other.0)
    }

    /// The users of this set who are not in the other.
    #[must_use]
    pub fn minus(self, other: UserSet) -> UserSet {
        UserSet(self.0 & !other.0)
    }

    /// How many users.
    pub fn size(self) -> u32 {
        self.0.count_ones()
    }

    /// Whether nobody is in it.
    pub fn is_empty(self) -> bool {
        self.0 == 0
    }

    /// Whether every user of this set is in the other.
    pub fn within(self, other: UserSet) -> bool {
        self.minus(other).is_empty()
    }

    /// Whether this set is within the other and smaller.
    pub fn strictly_within(self, other: UserSet) -> bool {
        self != other && self.within(other)
    }

    /// The only user of the set, if there is exactly one.
    pub fn only_user(self) -> Option<User> {
        self.0
            .is_power_of_two()
            .then(|| User(self.0.trailing_zeros() as u16))
    }

    /// The users in ascending order.
    pub fn users(self) -> impl Iterator<Item = User> {
        let mut left = self.0;
        std::iter::from_fn(move || {
            if left == 0 {
                return None;
            }
            let user = User(left.trailing_zeros() as u16);
            left &= left - 1;
            Some(user)
        })
    }
}

impl FromIterator<User> for UserSet {
    fn from_iter<I: IntoIterator<Item = User>>(users: I) -> UserSet {
        users.into_iter().fold(UserSet::EMPTY, UserSet::with)
    }
}

#[cfg(test)]
mod tests {
    use super::*;

    #[test]
    fn sets_at_their_edges() {
        assert_eq!(UserSet::first(0), UserSet::EMPTY);
        assert_eq!(UserSet::first(63).size(), 63);
        assert_eq!(UserSet::first(64).size(), 64);
        assert_eq!(UserSet::first(u16::MAX).size(), 64);
        assert!(UserSet::alone(User(63)).names(User(63)));
        assert!(!UserSet::first(64).names(User(64)));
        assert_eq!(UserSet::alone(User(64)), UserSet::EMPTY);
        assert_eq!(
            UserSet(0b1010).users().collect::<Vec<_>>(),
            [User(1), User(3)]
        );
        assert_eq!(UserSet(8).only_user(), Some(User(3)));
        assert_eq!(UserSet(0).only_user(), None);
        assert_eq!(UserSet(3).only_user(), None);
        assert!(UserSet(1).strictly_within(UserSet(3)));
        assert!(!UserSet(3).strictly_within(UserSet(3)));
    }
}
