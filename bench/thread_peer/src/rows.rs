//! The rows as the readers see them, in five ways.
use crate::core::{listed, Row};
use crate::manager::{Client, Inner};
use crate::sorted::Sorted;
use arc_swap::ArcSwap;
use crossbeam_utils::CachePadded;
use hashbrown::hash_map::DefaultHashBuilder;
use hashbrown::HashMap;
use std::cell::UnsafeCell;
use std::hash::BuildHasher;
use std::sync::atomic::{fence, AtomicU64, AtomicUsize, Ordering::*};
use std::sync::{Arc, Mutex, OnceLock, RwLock};

/// The ids of the open comms and the names of their targets, by id.
pub type Infos = Arc<[(Arc<str>, Arc<str>)]>;

/// A change to be shown: the front that it gives, and the row that it puts, if any.
#[derive(Clone)]
pub struct Shown {
    pub front: u64,
    pub row: Option<(Arc<str>, Arc<Row>)>,
}

/// Each read gives the number of changes that it saw, too.
pub trait Rows: Sync + Sized {
    /// What became garbage; it is dropped after the changes' Mutex was left.
    type Old;
    fn new() -> Self;
    /// Called with the changes' Mutex held.
    fn publish(&self, change: Shown) -> Self::Old;
    fn state(&self, inner: &Mutex<Inner>, client: &Client, id: &str) -> (u64, Option<Arc<Row>>);
    fn infos(&self, inner: &Mutex<Inner>, client: &Client) -> (u64, Infos);
}

/// A table of rows that is changed in place. The listing is kept until a comm comes.
#[derive(Default)]
struct Table {
    front: u64,
    rows: HashMap<Arc<str>, Arc<Row>>,
    kept: OnceLock<Infos>,
}

impl Table {
    fn apply(&mut self, change: Shown) -> Option<Arc<Row>> {
        self.front = change.front;
        let (id, row) = change.row?;
        let old = self.rows.insert(id, row);
        if old.is_none() {
            self.kept = OnceLock::new();
        }
        old
    }

    fn state(&self, id: &str) -> (u64, Option<Arc<Row>>) {
        (self.front, self.rows.get(id).cloned())
    }

    fn infos(&self) -> (u64, Infos) {
        (self.front, self.kept.get_or_init(|| listed(self.rows.iter())).clone())
    }
}

/// Readers take the changes' own Mutex.
pub struct ByMutex;

impl Rows for ByMutex {
    type Old = ();
    fn new() -> Self {
        ByMutex
    }
    fn publish(&self, _: Shown) {}
    fn state(&self, inner: &Mutex<Inner>, _: &Client, id: &str) -> (u64, Option<Arc<Row>>) {
        let inner = inner.lock().expect("no thread panics");
        (inner.history.len() as u64, inner.core.comms.get(id).map(|c| c.row.clone()))
    }
    fn infos(&self, inner: &Mutex<Inner>, _: &Client) -> (u64, Infos) {
        let mut inner = inner.lock().expect("no thread panics");
        (inner.history.len() as u64, inner.core.infos())
    }
}

/// A table in a RwLock of its own.
pub struct ByRwLock(RwLock<Table>);

impl Rows for ByRwLock {
    type Old = Option<Arc<Row>>;
    fn new() -> Self {
        ByRwLock(RwLock::default())
    }
    fn publish(&self, change: Shown) -> Self::Old {
        self.0.write().expect("no thread panics").apply(change)
    }
    fn state(&self, _: &Mutex<Inner>, _: &Client, id: &str) -> (u64, Option<Arc<Row>>) {
        self.0.read().expect("no thread panics").state(id)
    }
    fn infos(&self, _: &Mutex<Inner>, _: &Client) -> (u64, Infos) {
        self.0.read().expect("no thread panics").infos()
    }
}

/// A map that never changes, shared whole: pieces by the least key that may stand in each, so that the next version
/// copies one piece and the pointers to the others. It is ordered by the hashes of the ids, which are quick to compare.
pub struct Root<V> {
    front: u64,
    hasher: DefaultHashBuilder,
    pieces: Sorted<Key, Arc<Sorted<Key, V>>>,
    kept: Arc<OnceLock<Infos>>, // shared until a comm comes
}

/// An id's hash, and the id.
type Key = (u64, Arc<str>);

const LONGEST: usize = 48;

impl<V: Clone> Root<V> {
    fn new() -> Root<V> {
        let pieces = Sorted::new(Arc::new([(0, "".into())]), Arc::new([Arc::default()])); // the least key of all
        Root { front: 0, hasher: DefaultHashBuilder::default(), pieces, kept: Arc::default() }
    }

    fn get(&self, id: &str) -> Option<&V> {
        let hash = self.hasher.hash_one(id);
        let piece = self.pieces.at(place(&self.pieces, hash, id).unwrap_or_else(|i| i - 1));
        place(piece, hash, id).ok().map(|i| piece.at(i))
    }

    fn values(&self) -> impl Iterator<Item = (&Arc<str>, &V)> {
        self.pieces.iter().flat_map(|(_, piece)| piece.iter()).map(|((_, id), v)| (id, v))
    }

    fn with(&self, front: u64, id: &Arc<str>, value: V) -> Root<V> {
        let hash = self.hasher.hash_one(&**id);
        let i = place(&self.pieces, hash, id).unwrap_or_else(|i| i - 1);
        let old = self.pieces.at(i);
        let new = old.with(place(old, hash, id), &(hash, id.clone()), value);
        let kept = if new.len() == old.len() { self.kept.clone() } else { Arc::default() };
        let pieces = if new.len() <= LONGEST {
            self.pieces.with_at(i, Arc::new(new))
        } else {
            let (a, b) = new.halves();
            let least = b.key(0).clone();
            self.pieces.with_at(i, Arc::new(a)).with(Err(i + 1), &least, Arc::new(b))
        };
        Root { front, hasher: self.hasher.clone(), pieces, kept }
    }

    fn with_front(&self, front: u64) -> Root<V> {
        Root { front, hasher: self.hasher.clone(), pieces: self.pieces.clone(), kept: self.kept.clone() }
    }
}

fn place<V: Clone>(map: &Sorted<Key, V>, hash: u64, id: &str) -> Result<usize, usize> {
    map.place(|(h, k)| h.cmp(&hash).then_with(|| (**k).cmp(id)))
}

/// Each change stores a new root of all rows.
pub struct ByArcSwap(ArcSwap<Root<Arc<Row>>>);

impl Rows for ByArcSwap {
    type Old = Arc<Root<Arc<Row>>>;
    fn new() -> Self {
        ByArcSwap(ArcSwap::from_pointee(Root::new()))
    }
    fn publish(&self, change: Shown) -> Self::Old {
        let root = self.0.load();
        let new = match change.row {
            Some((id, row)) => root.with(change.front, &id, row),
            None => root.with_front(change.front),
        };
        self.0.swap(Arc::new(new))
    }
    fn state(&self, _: &Mutex<Inner>, _: &Client, id: &str) -> (u64, Option<Arc<Row>>) {
        let root = self.0.load();
        (root.front, root.get(id).cloned())
    }
    fn infos(&self, _: &Mutex<Inner>, _: &Client) -> (u64, Infos) {
        let root = self.0.load();
        (root.front, root.kept.get_or_init(|| listed(root.values())).clone())
    }
}

/// Each comm has a slot of its own, and a root of the slots is stored only where a comm comes. A slot has the number
/// of the change that filled it. A read looks at the front, then at the slot: what it finds is the state at the
/// later one of the two, and at any front that the reader saw before, because changes are made one by one.
pub struct BySlots {
    front: AtomicU64,
    slots: ArcSwap<Root<Slot>>,
}

type Slot = Arc<ArcSwap<(u64, Arc<Row>)>>;

impl Rows for BySlots {
    type Old = Option<Arc<(u64, Arc<Row>)>>;
    fn new() -> Self {
        BySlots { front: AtomicU64::new(0), slots: ArcSwap::from_pointee(Root::new()) }
    }
    fn publish(&self, change: Shown) -> Self::Old {
        let front = change.front;
        let mut old = None;
        if let Some((id, row)) = change.row {
            let root = self.slots.load();
            let filled = Arc::new((front, row));
            match root.get(&id) {
                Some(slot) => old = Some(slot.swap(filled)),
                None => self.slots.store(Arc::new(root.with(front, &id, Arc::new(ArcSwap::new(filled))))),
            }
        }
        self.front.store(front, Release);
        old
    }
    fn state(&self, _: &Mutex<Inner>, client: &Client, id: &str) -> (u64, Option<Arc<Row>>) {
        let front = self.front.load(Acquire).max(client.seen);
        let root = self.slots.load();
        match root.get(id).map(|slot| slot.load()) {
            Some(row) => (front.max(row.0), Some(row.1.clone())),
            None => (front, None),
        }
    }
    fn infos(&self, _: &Mutex<Inner>, client: &Client) -> (u64, Infos) {
        let front = self.front.load(Acquire).max(client.seen);
        let root = self.slots.load();
        let rows = || root.values().map(|(id, slot)| (id, slot.load().1.clone()));
        (front.max(root.front), root.kept.get_or_init(|| listed(rows())).clone())
    }
}

const READERS: usize = crate::MOST_CLIENTS;

/// Two tables and an epoch for each reader, odd while it is inside.
pub struct ByLeftRight {
    copies: [UnsafeCell<Table>; 2],
    live: AtomicUsize,
    epochs: [CachePadded<AtomicUsize>; READERS],
    writer: Mutex<Lag>,
}

/// The epochs at the last swap, and what the copy that isn't live lacks.
#[derive(Default)]
struct Lag {
    epochs: [usize; READERS],
    change: Option<Shown>,
}

unsafe impl Sync for ByLeftRight {}

impl ByLeftRight {
    fn read<T>(&self, reader: usize, f: impl FnOnce(&Table) -> T) -> T {
        self.epochs[reader].fetch_add(1, AcqRel);
        fence(SeqCst);
        // Safety: the writer leaves this copy alone until this reader's epoch moves on.
        let r = f(unsafe { &*self.copies[self.live.load(Acquire)].get() });
        self.epochs[reader].fetch_add(1, Release);
        r
    }
}

impl Rows for ByLeftRight {
    type Old = [Option<Arc<Row>>; 2];
    fn new() -> Self {
        ByLeftRight {
            copies: Default::default(),
            live: AtomicUsize::new(0),
            epochs: Default::default(),
            writer: Mutex::default(),
        }
    }
    fn publish(&self, change: Shown) -> Self::Old {
        let mut lag = self.writer.lock().expect("no thread panics"); // never contended: the changes' Mutex is held
        for r in 0..READERS {
            let mut turns = 0;
            while lag.epochs[r] % 2 == 1 && self.epochs[r].load(Acquire) == lag.epochs[r] {
                turns += 1;
                if turns < 20 {
                    std::hint::spin_loop();
                } else {
                    std::thread::yield_now();
                }
            }
        }
        let stale = 1 - self.live.load(Relaxed);
        // Safety: every reader that could be in the stale copy has left since the last swap.
        let table = unsafe { &mut *self.copies[stale].get() };
        let first = lag.change.take().and_then(|c| table.apply(c));
        let second = table.apply(change.clone());
        lag.change = Some(change);
        self.live.store(stale, SeqCst);
        fence(SeqCst);
        for r in 0..READERS {
            lag.epochs[r] = self.epochs[r].load(Acquire);
        }
        [first, second]
    }
    fn state(&self, _: &Mutex<Inner>, client: &Client, id: &str) -> (u64, Option<Arc<Row>>) {
        self.read(client.id as usize, |t| t.state(id))
    }
    fn infos(&self, _: &Mutex<Inner>, client: &Client) -> (u64, Infos) {
        self.read(client.id as usize, Table::infos)
    }
}
