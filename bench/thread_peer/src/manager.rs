//! The manager that threads share.
use crate::core::{Call, Core, Entry, Reply, Row, Step, Target};
use crate::rows::{Infos, Rows, Shown};
use crate::sorted::Dict;
use crossbeam_queue::ArrayQueue;
use std::sync::{Arc, Mutex};

pub struct Limits {
    pub comms: usize,
    pub history: u64,
    pub outbox: usize,
}

/// What lies under the changes' Mutex.
pub struct Inner {
    pub core: Core,
    pub history: Vec<Arc<Entry>>,
}

pub struct Manager<R> {
    limits: Limits,
    inner: Mutex<Inner>,
    rows: R,
    queue: ArrayQueue<Arc<Entry>>,
}

/// Used by one thread at a time.
pub struct Client {
    pub id: u8,
    number: u64,
    pub seen: u64,
}

#[derive(Debug)]
pub enum Unavailable {
    HistoryFull,
    OutboxFull,
}

pub struct Answered {
    pub number: u64,
    pub reply: Reply,
}

pub struct Farewell {
    pub history: Vec<Arc<Entry>>,
    pub untaken: Vec<Arc<Entry>>,
}

impl<R: Rows> Manager<R> {
    pub fn new(clients: u8, limits: Limits) -> (Manager<R>, Vec<Client>) {
        let inner = Inner { core: Core::new(limits.comms), history: Vec::new() };
        let queue = ArrayQueue::new(limits.outbox + 1); // a place for the end
        let clients = (0..clients).map(|id| Client { id, number: 0, seen: 0 }).collect();
        (Manager { limits, inner: Mutex::new(inner), rows: R::new(), queue }, clients)
    }

    pub fn register(
        &self,
        client: &mut Client,
        name: Arc<str>,
        target: Box<dyn Target>,
    ) -> Result<Answered, Unavailable> {
        self.change(client, Call::Register { name }, Some(target))
    }

    pub fn open(
        &self,
        client: &mut Client,
        id: Arc<str>,
        target: Arc<str>,
        state: Dict,
    ) -> Result<Answered, Unavailable> {
        self.change(client, Call::Open { id, target, state }, None)
    }

    pub fn push(&self, client: &mut Client, id: Arc<str>, state: Dict) -> Result<Answered, Unavailable> {
        self.change(client, Call::Push { id, state }, None)
    }

    fn change(
        &self,
        client: &mut Client,
        call: Call,
        target: Option<Box<dyn Target>>,
    ) -> Result<Answered, Unavailable> {
        let mut inner = self.inner.lock().expect("no thread panics");
        if inner.history.len() as u64 >= self.limits.history {
            return Err(Unavailable::HistoryFull);
        }
        if self.queue.len() >= self.limits.outbox {
            return Err(Unavailable::OutboxFull);
        }
        let Step { answer, reply, outgoing, row } = inner.core.step(&call, target);
        client.number += 1;
        let entry = Arc::new(Entry::Change { client: client.id, number: client.number, call, answer, reply, outgoing });
        inner.history.push(entry.clone());
        let front = inner.history.len() as u64;
        let old = self.rows.publish(Shown { front, row });
        client.seen = front;
        let _ = self.queue.push(entry); // there is a place: only changes put, and one at a time
        drop(inner);
        drop(old);
        Ok(Answered { number: front, reply })
    }

    pub fn state(&self, client: &mut Client, id: &str) -> Option<Arc<Row>> {
        let (front, row) = self.rows.state(&self.inner, client, id);
        client.seen = client.seen.max(front);
        row
    }

    pub fn comm_info(&self, client: &mut Client) -> Infos {
        let (front, infos) = self.rows.infos(&self.inner, client);
        client.seen = client.seen.max(front);
        infos
    }

    /// The publisher's.
    pub fn take(&self) -> Option<Arc<Entry>> {
        self.queue.pop()
    }

    pub fn shutdown(self) -> Farewell {
        let mut history = self.inner.into_inner().expect("no thread panics").history;
        let end = Arc::new(Entry::End);
        history.push(end.clone());
        let _ = self.queue.push(end);
        let untaken = std::iter::from_fn(|| self.queue.pop()).collect();
        Farewell { history, untaken }
    }
}
