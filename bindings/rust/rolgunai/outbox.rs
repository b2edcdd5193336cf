//! What lets threads send in the order of the changes that they made: what a change sends is held back until all
//! changes of lower numbers have had their turn, and what a call that is no change sends until all that it comes after
//! have.

use std::collections::BTreeMap;
use std::fmt::{self, Debug, Formatter};
use std::sync::{Arc, Mutex, MutexGuard, PoisonError};

type Send = Box<dyn FnOnce() + std::marker::Send>;

/// What waits, by its number and, behind the change of that number, those that come after it, as they came.
#[derive(Default)]
struct Waiting {
    gone: u64,
    is_sending: bool,
    came: u64,
    turns: BTreeMap<(u64, bool, u64), Option<Send>>,
}

impl Waiting {
    /// The next one whose time has come.
    fn next(&mut self) -> Option<Option<Send>> {
        let first = self.turns.first_entry()?;
        let (number, is_after, _) = *first.key();
        if number > self.gone + u64::from(!is_after) {
            return None;
        }
        self.gone = if is_after { self.gone } else { number };
        Some(first.remove())
    }
}

/// Those that wait for their turn. One thread sends at a time, and holds no lock while it does: it may send for others
/// too, and what it calls may make calls of its own.
#[derive(Default)]
pub struct Outbox(Mutex<Waiting>);

impl Debug for Outbox {
    fn fmt(&self, to: &mut Formatter<'_>) -> fmt::Result {
        to.write_str("Outbox")
    }
}

/// The thread that sends; where that panics, another may.
struct Sending<'a>(&'a Outbox);

impl Drop for Sending<'_> {
    fn drop(&mut self) {
        self.0.waiting().is_sending = false;
    }
}

impl Outbox {
    fn waiting(&self) -> MutexGuard<'_, Waiting> {
        self.0.lock().unwrap_or_else(PoisonError::into_inner)
    }

    /// Puts one, and sends all whose time has come, unless another thread does.
    fn put(&self, number: u64, is_change: bool, send: Option<Send>) {
        let mut waiting = self.waiting();
        let came = waiting.came;
        waiting.came += 1;
        waiting.turns.insert((number, !is_change, came), send);
        if waiting.is_sending {
            return;
        }
        waiting.is_sending = true;
        let sending = Sending(self);
        while let Some(next) = waiting.next() {
            drop(waiting);
            if let Some(send) = next {
                send();
            }
            waiting = self.waiting();
        }
        // Under the lock, so that whoever puts one from here on sends it.
        waiting.is_sending = false;
        std::mem::forget(sending);
    }
}

/// The turn of a call that was made. Where it is dropped unused, nothing is sent and those behind it go on.
#[derive(Debug)]
pub struct Turn {
    outbox: Arc<Outbox>,
    number: u64,
    is_change: bool,
    is_used: bool,
}

impl Turn {
    /// Of this change, or of a call that is none and comes after so many.
    pub fn of(outbox: &Arc<Outbox>, number: u64, is_change: bool) -> Turn {
        Turn { outbox: Arc::clone(outbox), number, is_change, is_used: false }
    }

    /// Calls `send` when the time has come, here or in another thread.
    pub fn send(mut self, send: impl FnOnce() + std::marker::Send + 'static) {
        self.is_used = true;
        self.outbox.put(self.number, self.is_change, Some(Box::new(send)));
    }
}

impl Drop for Turn {
    fn drop(&mut self) {
        if !self.is_used {
            self.outbox.put(self.number, self.is_change, None);
        }
    }
}
