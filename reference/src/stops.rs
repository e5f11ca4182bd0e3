//! A host that stops in the middle of a request's orders (RULES 6.6), and goes
//! on (RULES 6.7).
//!
//! A [`Watch`] has the host as it is at every stop of one request. Who opens
//! what there is asked of the host alone: of the keys it has handed out, its
//! tokens and its locks. The book is asked only for the lists.

use crate::book::Book;
use crate::host::{Host, Task};
use crate::numbers::{Resource, User};
use crate::requests::Request;
use crate::sets::UserSet;

/// What must not be. A stop is told by the count of orders that were obeyed.
#[derive(Clone, Debug, PartialEq, Eq)]
pub enum Breach {
    /// The host can not obey an order.
    NotObeyed(String),
    /// Another folder opens for somebody who is not on its list.
    OtherOpen(usize, Resource, User),
    /// Another folder does not open for somebody who is on its list.
    OtherShut(usize, Resource, User),
    /// A folder that is changed opens for somebody who is on neither list.
    ChangedOpen(usize, Resource, User),
    /// A folder that is changed does not open for somebody who is on both
    /// lists.
    ChangedShut(usize, Resource, User),
    /// Stopped there, so many orders obeyed again do not give what they must.
    Again(usize, usize),
    /// After all orders the host has not what the book has.
    End(String),
}

/// A folder's list before a request and after it; a new folder has the one it
/// comes with before it, too.
#[derive(Clone, Copy, Debug)]
struct Lists {
    before: UserSet,
    after: UserSet,
    /// Whether the request changes the folder.
    changed: bool,
}

/// A request at a host, order by order.
#[derive(Clone, Debug)]
pub struct Watch {
    task: Task,
    /// Every folder's.
    lists: Vec<Lists>,
    /// The host after no order, after one, and so on to all.
    hosts: Vec<Host>,
}

/// The folders' lists before and after a request.
fn lists(book: &Book, request: &Request) -> Vec<Lists> {
    let lists = |place: usize, before: UserSet| {
        let r = Resource::at(place);
        let (after, changed) = match *request {
            Request::Grant(named, u) if named == r => (before.with(u), true),
            Request::Revoke(named, u) if named == r => (before.without(u), true),
            Request::Leave(u) if before.names(u) => (before.without(u), true),
            Request::Insert(_) => (before, place == book.resources.len()),
            _ => (before, false),
        };
        Lists {
            before,
            after,
            changed,
        }
    };
    let new = match request {
        Request::Insert(list) => Some(list.set),
        _ => None,
    };
    let there = book.resources.iter().map(|row| row.list);
    let all = there.chain(new).enumerate();
    all.map(|(place, list)| lists(place, list)).collect()
}

impl Watch {
    /// The host, which must be in step with the book, obeys the orders of a
    /// request on it.
    pub fn of(host: Host, book: &Book, request: &Request, task: Task) -> Result<Watch, Breach> {
        let mut hosts = vec![host.clone()];
        let mut host = host;
        for &row in &task.rows {
            host.obey(row, task.joiner).map_err(Breach::NotObeyed)?;
            hosts.push(host.clone());
        }
        Ok(Watch {
            task,
            lists: lists(book, request),
            hosts,
        })
    }

    /// The last stop: all orders.
    pub fn last(&self) -> usize {
        self.task.rows.len()
    }

    /// The host at that stop.
    pub fn host(&self, stop: usize) -> &Host {
        &self.hosts[stop]
    }

    /// What must not be for that user at that stop (RULES 6.6).
    pub fn stop(&self, stop: usize, user: User) -> Vec<Breach> {
        let host = &self.hosts[stop];
        let derived = host.derive(user);
        let mut breaches = Vec::new();
        // A folder that is not encrypted yet does not count.
        for (place, lists) in self.lists.iter().enumerate().take(host.folders()) {
            let folder = Resource::at(place);
            let opens = host.opens(&derived, place);
            match (lists.before.names(user), lists.after.names(user)) {
                (true, true) if !opens && lists.changed => {
                    breaches.push(Breach::ChangedShut(stop, folder, user));
                }
                (true, true) if !opens => breaches.push(Breach::OtherShut(stop, folder, user)),
                (false, false) if opens && lists.changed => {
                    breaches.push(Breach::ChangedOpen(stop, folder, user));
                }
                (false, false) if opens => breaches.push(Breach::OtherOpen(stop, folder, user)),
                _ => {}
            }
        }
        breaches
    }

    /// Goes on from that stop (RULES 6.7): the orders are obeyed again, from
    /// the first. After each the host must be as it was after the larger of
    /// the two counts of orders.
    pub fn again(&self, stop: usize) -> Result<(), Breach> {
        let mut host = self.hosts[stop].clone();
        for (&row, count) in self.task.rows.iter().zip(1..) {
            let obeyed = host.obey_again(row, self.task.joiner);
            if obeyed.is_err() || host != self.hosts[stop.max(count)] {
                return Err(Breach::Again(stop, count));
            }
        }
        Ok(())
    }

    /// The host after all orders, which must have what the new book has.
    pub fn end(mut self, book: &Book) -> Result<Host, Breach> {
        let host = self.hosts.swap_remove(self.task.rows.len());
        host.agrees(book).map_err(Breach::End)?;
        Ok(host)
    }
}
