//! The library against LevelDB itself: lookups, scans both ways, seeks and strings of moves at every snapshot.

use crate::gen::Shape;
use crate::leveldb::{version, Database, Iter, View};
use crate::rng::Rng;
use bavolinesk::raw::{self, Cursor};

#[derive(Debug, Default)]
pub struct Counts {
    pub snapshots: u64,
    pub lookups: u64,
    pub forward: u64,
    pub backward: u64,
    pub seeks: u64,
}

/// The two images that hold what the database holds.
pub struct Pair {
    pub first: Vec<u8>,
    pub second: Vec<u8>,
    /// All entries of the first are newer than those of the second.
    pub newer_first: bool,
}

impl Pair {
    fn new(rng: &mut Rng) -> Pair {
        let newer_first = rng.one_in(2);
        let mut pair = Pair {
            first: vec![0; 65_536],
            second: vec![0; 65_536],
            newer_first,
        };
        assert_eq!((raw::fresh(&mut pair.first), raw::fresh(&mut pair.second)), (0, 0));
        pair
    }

    fn shown(&self, at: Cursor) -> Option<(&[u8], &[u8])> {
        let (one, two) = (&self.first, &self.second);
        let (key, value) = (raw::row_key(one, two, at), raw::row_value(one, two, at));
        assert_eq!((key.refusal, value.refusal), (0, 0));
        (at.table != 0).then(|| (key.of(one, two), value.of(one, two)))
    }
}

struct Walk<'a> {
    pair: &'a Pair,
    iter: Iter<'a>,
    at: Cursor,
    snapshot: u64,
    moves: Vec<String>,
}

impl Walk<'_> {
    fn moved(&mut self, name: String, moved: raw::Moved) {
        self.moves.push(name);
        assert_eq!(moved.refusal, 0, "{:?}", self.moves);
        self.at = moved.cursor();
        let (here, there) = (self.pair.shown(self.at), self.iter.row());
        assert_eq!(
            here, there,
            "snapshot {}: after {:?}; LevelDB is on the right",
            self.snapshot, self.moves
        );
    }

    fn first(&mut self) {
        self.iter.first();
        self.moved(
            "first".into(),
            raw::first(&self.pair.first, &self.pair.second, self.snapshot, self.at),
        );
    }

    fn seek(&mut self, key: &[u8]) {
        self.iter.seek(key);
        let moved = raw::seek(&self.pair.first, &self.pair.second, self.snapshot, self.at, key);
        self.moved(format!("seek {key:02x?}"), moved);
    }

    fn next(&mut self) {
        self.iter.next();
        self.moved(
            "next".into(),
            raw::next(&self.pair.first, &self.pair.second, self.snapshot, self.at),
        );
    }

    fn prev(&mut self) {
        self.iter.prev();
        self.moved(
            "prev".into(),
            raw::prev(&self.pair.first, &self.pair.second, self.snapshot, self.at),
        );
    }
}

fn compare(rng: &mut Rng, shape: &Shape, pair: &Pair, view: &View<'_>, snapshot: u64, counts: &mut Counts) {
    let mut walk = Walk {
        pair,
        iter: view.iter(),
        at: Cursor::NOWHERE,
        snapshot,
        moves: Vec::new(),
    };
    // Forward from the first row to the end; then backward from the last.
    walk.first();
    let mut last = Cursor::NOWHERE;
    while walk.iter.valid() {
        last = walk.at;
        walk.next();
        counts.forward += 1;
    }
    walk.at = last;
    walk.iter.last();
    assert_eq!(pair.shown(last), walk.iter.row(), "snapshot {snapshot}: the last row");
    while walk.iter.valid() {
        walk.prev();
        counts.backward += 1;
    }
    // Seeks, each followed by a string of moves both ways while there is a row.
    for _ in 0..4 {
        walk.moves.clear();
        walk.seek(&shape.key(rng));
        counts.seeks += 1;
        for _ in 0..rng.below(12) {
            if !walk.iter.valid() {
                break;
            }
            if rng.one_in(2) {
                walk.next();
                counts.forward += 1;
            } else {
                walk.prev();
                counts.backward += 1;
            }
        }
    }
    for _ in 0..if pair.newer_first { 4 } else { 0 } {
        let key = shape.key(rng);
        let found = raw::pair_get(&pair.first, &pair.second, &key, snapshot);
        assert_eq!(found.refusal, 0);
        let image = if found.table == 1 { &pair.first } else { &pair.second };
        let here = (found.answer == 1).then(|| raw::value(image, found.node).of(image).to_vec());
        assert_eq!(
            here,
            view.get(&key),
            "snapshot {snapshot}: key {key:02x?}; LevelDB is on the right"
        );
        counts.lookups += 1;
    }
}

/// One database of so many writes, looked at after each of them.
fn one(rng: &mut Rng, case: u64, writes: usize, counts: &mut Counts) {
    let shape = Shape::draw(rng, false);
    let database = Database::new(&case.to_string());
    let mut pair = Pair::new(rng);
    let turn = rng.below(writes + 1) as u64;
    let mut views = Vec::new();
    for number in 1..=writes as u64 {
        let (key, kind, value) = (shape.key(rng), shape.kind(rng), shape.value(rng));
        match kind {
            1 => database.put(&key, &value),
            _ => database.delete(&key),
        }
        let to_first = if pair.newer_first { number > turn } else { rng.one_in(2) };
        let image = if to_first { &mut pair.first } else { &mut pair.second };
        let added = raw::add(image, &key, number, kind, &value, shape.height(rng));
        assert_eq!(added.refusal, 0, "add {number}");
        views.push(database.view());
    }
    for (index, view) in views.iter().enumerate() {
        compare(rng, &shape, &pair, view, index as u64 + 1, counts);
        counts.snapshots += 1;
    }
}

/// So many databases; panics at the first disagreement.
pub fn run(seed: u64, databases: u64) -> Counts {
    println!("leveldb: version {}", version());
    let mut counts = Counts::default();
    for case in 0..databases {
        let mut rng = Rng::new(seed ^ case.wrapping_mul(0xa076_1d64_78bd_642f));
        let writes = *rng.pick(&[3, 10, 30, 100, 250]);
        one(&mut rng, case, writes, &mut counts);
    }
    counts
}
