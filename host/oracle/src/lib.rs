//! The crate rusty-leveldb 4.0.2, as far as the runs need it: its memtable, and its DBIterator over two of them.

use rand::rngs::StdRng;
use rand::{RngCore, SeedableRng};
use rusty_leveldb::DB::{
    in_memory, share, Cache, Cmp, DBIterator, DefaultCmp, InternalKeyCmp, LdbIterator, LookupKey, MemTable,
    MergingIter, SnapshotList, TableCache, ValueType, VersionSet,
};
use std::rc::Rc;

pub use rusty_leveldb::DB;

pub fn cmp() -> Rc<Box<dyn Cmp>> {
    Rc::new(Box::new(DefaultCmp))
}

/// One table of the crate.
pub struct Memory(pub MemTable);

impl Default for Memory {
    fn default() -> Memory {
        Memory::new()
    }
}

impl Memory {
    pub fn new() -> Memory {
        Memory(MemTable::new(cmp()))
    }

    pub fn add(&mut self, key: &[u8], number: u64, kind: u8, value: &[u8]) {
        let kind = match kind {
            0 => ValueType::TypeDeletion,
            _ => ValueType::TypeValue,
        };
        self.0.add(number, kind, key, value);
    }

    /// The value, and whether the key was deleted.
    pub fn get(&self, key: &[u8], snapshot: u64) -> (Option<Vec<u8>>, bool) {
        let (value, deleted) = self.0.get(&LookupKey::new(key, snapshot));
        (value.map(|bytes| bytes.to_vec()), deleted)
    }
}

pub fn merge(first: &Memory, second: &Memory) -> MergingIter {
    let children: Vec<Box<dyn LdbIterator>> = vec![Box::new(first.0.iter()), Box::new(second.0.iter())];
    MergingIter::new(Rc::new(Box::new(InternalKeyCmp(cmp()))), children)
}

/// Makes the crate's cursors. Its version set is its own and empty, so that read sampling finds nothing to sample.
pub struct Cursors {
    versions: rusty_leveldb::DB::Shared<VersionSet>,
}

impl Default for Cursors {
    fn default() -> Cursors {
        Cursors::new()
    }
}

impl Cursors {
    pub fn new() -> Cursors {
        let cache = share(Cache::new(8));
        let tables = share(TableCache::new("oracle", in_memory(), cache, 8));
        Cursors {
            versions: share(VersionSet::new("oracle", in_memory(), tables)),
        }
    }

    pub fn over(&self, first: &Memory, second: &Memory, snapshot: u64) -> DBIterator {
        let snapshot = SnapshotList::new().new_snapshot(snapshot);
        DBIterator::new(cmp(), self.versions.clone(), merge(first, second), snapshot)
    }
}

/// The heights that the crate draws, list by list the same.
pub struct CrateHeights(StdRng);

impl Default for CrateHeights {
    fn default() -> CrateHeights {
        CrateHeights::new()
    }
}

impl CrateHeights {
    pub fn new() -> CrateHeights {
        CrateHeights(StdRng::seed_from_u64(0xdead_beef))
    }

    pub fn draw(&mut self) -> usize {
        let mut height = 1;
        while height < 12 && self.0.next_u32() % 4 == 0 {
            height += 1;
        }
        height
    }
}

/// Key and value that an iterator is on.
pub fn row(iter: &impl LdbIterator) -> Option<(Vec<u8>, Vec<u8>)> {
    let (key, value) = iter.current()?;
    Some((key.to_vec(), value.to_vec()))
}
