//! The maps beside the index: each lends snapshots while a writer makes the next version.

use arc_swap::ArcSwap;
use concread::bptree::{BptreeMap, BptreeMapReadTxn};
use im_rc::OrdMap;
use std::collections::BTreeMap;
use std::sync::{Arc, Mutex};

/// A map of versions.
pub trait Versions {
    /// A version that was present when it was opened.
    type Snapshot<'s>
    where
        Self: 's;

    fn new() -> Self;
    fn open(&self) -> Self::Snapshot<'_>;
    fn upsert(&self, pairs: &mut dyn Iterator<Item = (u64, u64)>);
    fn clear(&self);
    /// Removes each key from this one on.
    fn cut(&self, from: u64);
    fn get(snapshot: &Self::Snapshot<'_>, key: u64) -> Option<u64>;
    /// The sum of the values of up to `limit` pairs from a key on.
    fn sum(snapshot: &Self::Snapshot<'_>, from: u64, limit: usize) -> u64;
}

fn total<'a>(pairs: impl Iterator<Item = (&'a u64, &'a u64)>, limit: usize) -> u64 {
    pairs.take(limit).fold(0, |sum, (_, value)| sum.wrapping_add(*value))
}

/// im's `OrdMap`: a persistent B-tree, its present version behind an `ArcSwap`.
pub struct Im {
    present: ArcSwap<OrdMap<u64, u64>>,
    writer: Mutex<()>,
}

impl Im {
    fn edit(&self, change: impl FnOnce(OrdMap<u64, u64>) -> OrdMap<u64, u64>) {
        let _writer = self.writer.lock().unwrap();
        let next = change((**self.present.load()).clone());
        self.present.store(Arc::new(next));
    }
}

impl Versions for Im {
    type Snapshot<'s> = Arc<OrdMap<u64, u64>>;

    fn new() -> Self {
        Im { present: ArcSwap::from_pointee(OrdMap::new()), writer: Mutex::new(()) }
    }

    fn open(&self) -> Self::Snapshot<'_> {
        self.present.load_full()
    }

    fn upsert(&self, pairs: &mut dyn Iterator<Item = (u64, u64)>) {
        self.edit(|mut map| {
            for (key, value) in pairs {
                map.insert(key, value);
            }
            map
        });
    }

    fn clear(&self) {
        self.edit(|_| OrdMap::new());
    }

    fn cut(&self, from: u64) {
        self.edit(|map| map.split(&from).0);
    }

    fn get(snapshot: &Self::Snapshot<'_>, key: u64) -> Option<u64> {
        snapshot.get(&key).copied()
    }

    fn sum(snapshot: &Self::Snapshot<'_>, from: u64, limit: usize) -> u64 {
        total(snapshot.range(from..), limit)
    }
}

/// concread's `BptreeMap`: a copy-on-write B+ tree with transactions.
pub struct Concread(BptreeMap<u64, u64>);

impl Versions for Concread {
    type Snapshot<'s> = BptreeMapReadTxn<'s, u64, u64>;

    fn new() -> Self {
        Concread(BptreeMap::new())
    }

    fn open(&self) -> Self::Snapshot<'_> {
        self.0.read()
    }

    fn upsert(&self, pairs: &mut dyn Iterator<Item = (u64, u64)>) {
        let mut writes = self.0.write();
        for (key, value) in pairs {
            writes.insert(key, value);
        }
        writes.commit();
    }

    fn clear(&self) {
        let mut writes = self.0.write();
        writes.clear();
        writes.commit();
    }

    fn cut(&self, from: u64) {
        let mut writes = self.0.write();
        let keys: Vec<u64> = writes.range(from..).map(|(key, _)| *key).collect();
        for key in keys {
            writes.remove(&key);
        }
        writes.commit();
    }

    fn get(snapshot: &Self::Snapshot<'_>, key: u64) -> Option<u64> {
        snapshot.get(&key).copied()
    }

    fn sum(snapshot: &Self::Snapshot<'_>, from: u64, limit: usize) -> u64 {
        total(snapshot.range(from..), limit)
    }
}

/// The standard library's `BTreeMap`, copied whole where a snapshot of the version before is open.
pub struct Copied(Mutex<Arc<BTreeMap<u64, u64>>>);

impl Versions for Copied {
    type Snapshot<'s> = Arc<BTreeMap<u64, u64>>;

    fn new() -> Self {
        Copied(Mutex::new(Arc::new(BTreeMap::new())))
    }

    fn open(&self) -> Self::Snapshot<'_> {
        self.0.lock().unwrap().clone()
    }

    fn upsert(&self, pairs: &mut dyn Iterator<Item = (u64, u64)>) {
        let mut present = self.0.lock().unwrap();
        Arc::make_mut(&mut present).extend(pairs);
    }

    fn clear(&self) {
        *self.0.lock().unwrap() = Arc::new(BTreeMap::new());
    }

    fn cut(&self, from: u64) {
        let mut present = self.0.lock().unwrap();
        drop(Arc::make_mut(&mut present).split_off(&from));
    }

    fn get(snapshot: &Self::Snapshot<'_>, key: u64) -> Option<u64> {
        snapshot.get(&key).copied()
    }

    fn sum(snapshot: &Self::Snapshot<'_>, from: u64, limit: usize) -> u64 {
        total(snapshot.range(from..), limit)
    }
}
