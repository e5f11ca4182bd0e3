//! Answers whose orders lock a folder before something goes up: they show in
//! which order the orders stand.

use std::fmt;

/// How many such answers were compared.
#[derive(Clone, Copy, Debug, Default, PartialEq, Eq)]
pub struct Locks {
    /// Grants that lock neighbours and their own folder, then publish a token.
    pub grants: usize,
    /// Inserts in mode delta that lock their folder, then encrypt it.
    pub inserts: usize,
}

impl Locks {
    /// Counts the answer with these orders.
    pub fn count(&mut self, delta: bool, orders: &[[u16; 3]]) {
        let vertices = || orders.iter().filter(|row| row[0] == 3).map(|row| row[2]);
        // Neighbours are all locked with one vertex, the own folder with
        // another.
        let both = vertices().any(|vertex| Some(vertex) != vertices().next());
        match orders.last() {
            Some([6, ..]) if both => self.grants += 1,
            Some([7, ..]) if delta && vertices().next().is_some() => self.inserts += 1,
            _ => {}
        }
    }
}

impl fmt::Display for Locks {
    fn fmt(&self, f: &mut fmt::Formatter<'_>) -> fmt::Result {
        write!(
            f,
            "{} grants that lock neighbours and their folder, {} inserts in delta that lock",
            self.grants, self.inserts
        )
    }
}

#[cfg(test)]
mod tests {
    use super::*;

    #[test]
    fn which_answers_count() {
        let neighbour = [3, 1, 3];
        let own = [3, 0, 4];
        let off = [3, 0, 65535];
        let token = [6, 2, 3];
        let folder = [7, 2, 3];
        for (delta, orders, grants, inserts) in [
            (true, &[neighbour, own, token][..], 1, 0),
            (true, &[neighbour, neighbour, token], 0, 0),
            (false, &[own, token], 0, 0),
            (true, &[off], 0, 0),
            (true, &[own, folder], 0, 1),
            (false, &[own, folder], 0, 0),
            (true, &[folder], 0, 0),
            (true, &[], 0, 0),
        ] {
            let mut locks = Locks::default();
            locks.count(delta, orders);
            assert_eq!(locks, Locks { grants, inserts }, "{orders:?}");
        }
    }
}
