//! The peer of `load_generator`: a shared comm manager in plain Rust. Usage:
//!   thread_peer WAY WRITERS READERS CHANGES COMMS KEYS READ [texts]
//! WAY is how reads and changes meet: mutex, rwlock, leftright, arcswap or slots. With no writer, READERS read for
//! CHANGES milliseconds. With `texts` states come and go as JSON, as those of the library for C. bench/README.md tells
//! the rest.
#![allow(dead_code)] // the history keeps much that nothing here reads
mod core;
mod manager;
mod rows;
mod sorted;
mod texts;

use crate::core::{Reply, Widget};
use manager::{Client, Limits, Manager, Unavailable};
use rows::{ByArcSwap, ByLeftRight, ByMutex, ByRwLock, BySlots, Rows};
use sorted::{Dict, Val};
use std::sync::atomic::{AtomicBool, Ordering::*};
use std::sync::Arc;
use std::thread;
use std::time::{Duration, Instant};

#[derive(Clone, Copy, PartialEq)]
enum Read {
    State,
    Info,
    None,
}

const MOST_CLIENTS: usize = 32;

struct Load {
    writers: usize,
    readers: usize,
    /// The changes of a writer; the milliseconds of the readers, where there is none.
    each: u64,
    comms: usize,
    keys: usize,
    read: Read,
    /// Whether states come and go as JSON.
    texts: bool,
}

fn load(args: &[String]) -> Option<Load> {
    let [writers, readers, changes, comms, keys, read, as_what @ ..] = args else { return None };
    let texts = match as_what {
        [] => false,
        [word] if word == "texts" => true,
        _ => return None,
    };
    let (writers, readers) = (writers.parse().ok()?, readers.parse().ok()?);
    let (comms, keys) = (comms.parse().ok()?, keys.parse().ok()?);
    let changes: u64 = changes.parse().ok()?;
    let read = match read.as_str() {
        "state" => Read::State,
        "info" => Read::Info,
        "none" => Read::None,
        _ => return None,
    };
    let fits = (1..=MOST_CLIENTS).contains(&(writers + readers))
        && changes <= 10_000_000
        && (1..=4096).contains(&comms)
        && (1..=999).contains(&keys)
        && (read == Read::None) == (readers == 0);
    fits.then(|| Load { writers, readers, each: changes / writers.max(1) as u64, comms, keys, read, texts })
}

fn texts(letter: char, count: usize, digits: usize) -> Vec<Arc<str>> {
    (0..count).map(|i| format!("{letter}{i:0digits$}").into()).collect()
}

/// The change, once it is made.
fn tried(mut change: impl FnMut() -> Result<manager::Answered, Unavailable>) -> Reply {
    loop {
        match change() {
            Ok(answered) => return answered.reply,
            Err(Unavailable::OutboxFull) => thread::yield_now(),
            Err(Unavailable::HistoryFull) => panic!("the history is full"),
        }
    }
}

/// The state that a change gives: one key with a number.
fn new_state(texts: bool, key: &Arc<str>, number: u64) -> Dict {
    if texts {
        return texts::state_of(&format!("{{\"{key}\":{number}}}"));
    }
    Dict::new(Arc::new([key.clone()]), Arc::new([Val::Unsigned(number)]))
}

fn write<R: Rows>(m: &Manager<R>, client: &mut Client, l: &Load, first: usize, own: &Names) {
    let mut i = first;
    for n in 0..l.each {
        let new = || new_state(l.texts, &own.keys[i % l.keys], 1_000 + n);
        let reply = tried(|| m.push(client, own.ids[i].clone(), new()));
        assert_eq!(reply, Reply::Delivered);
        i = (i + 1) % l.comms;
    }
}

/// The ids and keys that a thread names, texts of its own.
struct Names {
    ids: Vec<Arc<str>>,
    keys: Vec<Arc<str>>,
}

/// Reads until the writers are done: how many reads, and the sum of what was seen.
fn read<R: Rows>(m: &Manager<R>, client: &mut Client, l: &Load, first: usize, own: &Names, done: &AtomicBool) -> Reads {
    let (mut reads, mut sum, mut i) = (0, 0u64, first);
    while !done.load(Acquire) {
        match l.read {
            Read::State => {
                let row = m.state(client, &own.ids[i]).expect("it stands");
                if l.texts {
                    sum = sum.wrapping_add(texts::text_of(&row.state).len() as u64);
                }
                match row.state.get(&own.keys[i % l.keys]) {
                    Some(Val::Unsigned(n)) => sum = sum.wrapping_add(*n),
                    _ => panic!("a number stands there"),
                }
            }
            _ if l.texts => sum += texts::infos_of(&m.comm_info(client)).len() as u64,
            _ => sum += m.comm_info(client).iter().map(|(id, _)| id.len() as u64).sum::<u64>(),
        }
        reads += 1;
        i = (i + 1) % l.comms;
    }
    Reads { reads, sum }
}

#[derive(Default)]
struct Reads {
    reads: u64,
    sum: u64,
}

/// Takes what goes out, and drops it: how much it was.
fn publish<R: Rows>(m: &Manager<R>, stop: &AtomicBool) -> u64 {
    let mut taken = 0;
    while !stop.load(Acquire) {
        match m.take() {
            Some(_) => taken += 1,
            None => thread::yield_now(),
        }
    }
    taken
}

/// A manager with the comms of the load, and its clients.
fn opened<R: Rows>(l: &Load) -> (Manager<R>, Vec<Client>) {
    let limits = Limits { comms: 4_096, history: 20_000_000, outbox: 65_536 };
    let (m, mut clients) = Manager::<R>::new((l.writers + l.readers) as u8, limits);
    let target: Arc<str> = "jupyter.widget".into();
    tried(|| m.register(&mut clients[0], target.clone(), Box::new(Widget::new())));
    let keys = texts('k', l.keys, 3);
    let state = || Dict::new(keys.as_slice().into(), (0..l.keys).map(|k| Val::Unsigned(1 + k as u64)).collect());
    for id in texts('c', l.comms, 4) {
        let reply = tried(|| m.open(&mut clients[0], id.clone(), target.clone(), state()));
        assert_eq!(reply, Reply::Opened);
    }
    (m, clients)
}

/// The nanoseconds of the writers, what the readers saw, and how much was taken.
fn run<R: Rows + Send + Sync>(l: &Load, m: &Manager<R>, clients: &mut [Client]) -> (u128, Reads, u64) {
    let own: Vec<_> =
        clients.iter().map(|_| Names { ids: texts('c', l.comms, 4), keys: texts('k', l.keys, 3) }).collect();
    let (stop, done) = (&AtomicBool::new(false), &AtomicBool::new(false));
    let first = |n: usize, of: usize| n * l.comms / of;
    thread::scope(|s| {
        let publisher = s.spawn(move || publish(m, stop));
        let start = Instant::now();
        let (writers, readers) = clients.split_at_mut(l.writers);
        let (for_writers, for_readers) = own.split_at(l.writers);
        let reading = |(n, (client, own))| s.spawn(move || read(m, client, l, first(n, l.readers), own, done));
        let readers: Vec<_> = readers.iter_mut().zip(for_readers).enumerate().map(reading).collect();
        let writing = |(n, (client, own))| s.spawn(move || write(m, client, l, first(n, l.writers), own));
        let writers: Vec<_> = writers.iter_mut().zip(for_writers).enumerate().map(writing).collect();
        if writers.is_empty() {
            thread::sleep(Duration::from_millis(l.each));
        }
        writers.into_iter().for_each(|w| w.join().expect("no thread panics"));
        let ns = start.elapsed().as_nanos();
        done.store(true, Release);
        let mut all = Reads::default();
        for reader in readers {
            let seen = reader.join().expect("no thread panics");
            all = Reads { reads: all.reads + seen.reads, sum: all.sum.wrapping_add(seen.sum) };
        }
        stop.store(true, Release);
        (ns, all, publisher.join().expect("no thread panics"))
    })
}

fn play<R: Rows + Send + Sync>(l: &Load) {
    let (m, mut clients) = opened::<R>(l);
    let (ns, Reads { reads, sum }, taken) = run(l, &m, &mut clients);
    let end = m.shutdown();
    let changes = l.each * l.writers as u64;
    let (history, untaken) = (end.history.len(), end.untaken.len());
    drop(end);
    print!("{{\"changes\":{changes},\"reads\":{reads},\"history\":{history},\"taken\":{taken},");
    println!("\"untaken\":{untaken},\"sum\":{sum},\"ns\":{ns}}}");
}

fn main() {
    let args: Vec<String> = std::env::args().skip(1).collect();
    let way = args.first().map(String::as_str);
    match (way, args.get(1..).and_then(load)) {
        (Some("mutex"), Some(l)) => play::<ByMutex>(&l),
        (Some("rwlock"), Some(l)) => play::<ByRwLock>(&l),
        (Some("leftright"), Some(l)) => play::<ByLeftRight>(&l),
        (Some("arcswap"), Some(l)) => play::<ByArcSwap>(&l),
        (Some("slots"), Some(l)) => play::<BySlots>(&l),
        _ => std::process::exit(3),
    }
}
