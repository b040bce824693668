// The library against the crate, where document 01 compares them: lookups in one table, and strings of first, seek and next on a
// cursor that has made no backward move, over tables with no key and number twice; within one string the tables do not change
// and the snapshot is one. The entry cursor is held to the crate's SkipMapIter, which goes backward by the rule too.
//   differential [--seed N|clock] [--cases N]
use bavolinesk::raw::{self, Cursor, EntryCursor};
use oracle::DB::{parse_memtable_key, LdbIterator, LookupKey, MemtableKeyCmp, SkipMap};
use oracle::{cmp, row, CrateHeights, Cursors, Memory};
use runs::args::Args;
use runs::gen::Shape;
use runs::rng::Rng;
use std::collections::HashSet;
use std::rc::Rc;

#[derive(Debug, Default)]
struct Counts {
    entries: u64,
    lookups: u64,
    found: u64,
    deleted: u64,
    forward_moves: u64,
    on_a_row: u64,
    entry_moves: u64,
}

struct Side {
    image: Vec<u8>,
    table: Memory,
    list: SkipMap,
    heights: CrateHeights,
}

impl Side {
    fn new(rng: &mut Rng) -> Side {
        let length = *rng.pick(&[700, 4_000, 65_536]);
        let mut image = vec![0; length];
        assert_eq!(raw::fresh(&mut image), 0);
        Side {
            image,
            table: Memory::new(),
            list: SkipMap::new(Rc::new(Box::new(MemtableKeyCmp(cmp())))),
            heights: CrateHeights::new(),
        }
    }
}

// An entry goes into both; into neither if the image is full.
fn add(side: &mut Side, rng: &mut Rng, shape: &Shape, key: &[u8], number: u64, as_crate: bool) -> bool {
    let (kind, value) = (shape.kind(rng), shape.value(rng));
    let height = if as_crate {
        side.heights.draw()
    } else {
        shape.height(rng)
    };
    let added = raw::add(&mut side.image, key, number, kind, &value, height);
    if added.refusal == 7 {
        return false;
    }
    assert_eq!(added.refusal, 0);
    side.table.add(key, number, kind, &value);
    let bytes = oracle::DB::build_memtable_key(key, &value, kind_of(kind), number);
    side.list.insert(bytes, Vec::new());
    true
}

fn kind_of(kind: u8) -> oracle::DB::ValueType {
    match kind {
        0 => oracle::DB::ValueType::TypeDeletion,
        _ => oracle::DB::ValueType::TypeValue,
    }
}

fn lookup(side: &Side, key: &[u8], snapshot: u64, counts: &mut Counts) {
    let found = raw::get(&side.image, key, snapshot);
    assert_eq!(found.refusal, 0);
    let value = (found.answer == 1).then(|| raw::value(&side.image, found.node).of(&side.image).to_vec());
    let (theirs, deleted) = side.table.get(key, snapshot);
    counts.lookups += 1;
    counts.found += u64::from(theirs.is_some());
    counts.deleted += u64::from(deleted);
    assert_eq!(
        (value, found.answer == 2),
        (theirs, deleted),
        "key {key:02x?} at {snapshot}; the crate is on the right"
    );
}

fn forward_string(rng: &mut Rng, shape: &Shape, sides: &[Side; 2], cursors: &Cursors, counts: &mut Counts) {
    let [first, second] = sides;
    let snapshot = shape.number(rng);
    let mut theirs = cursors.over(&first.table, &second.table, snapshot);
    let mut at = Cursor::NOWHERE;
    let mut moves = Vec::new();
    for _ in 0..rng.between(5, 60) {
        let moved = match rng.below(12) {
            0 => {
                moves.push("first".to_string());
                theirs.seek_to_first();
                raw::first(&first.image, &second.image, snapshot, at)
            }
            1 | 2 => {
                let key = shape.key(rng);
                moves.push(format!("seek {key:02x?}"));
                theirs.seek(&key);
                raw::seek(&first.image, &second.image, snapshot, at, &key)
            }
            _ => {
                moves.push("next".to_string());
                theirs.advance();
                raw::next(&first.image, &second.image, snapshot, at)
            }
        };
        assert_eq!(moved.refusal, 0);
        at = moved.cursor();
        let (one, two) = (&first.image, &second.image);
        let (key, value) = (
            raw::row_key(one, two, at).of(one, two),
            raw::row_value(one, two, at).of(one, two),
        );
        let ours = (at.table != 0).then(|| (key.to_vec(), value.to_vec()));
        assert_eq!(
            ours,
            row(&theirs),
            "snapshot {snapshot}, after {moves:?}; the crate is on the right"
        );
        counts.forward_moves += 1;
        counts.on_a_row += u64::from(at.table != 0);
    }
}

fn entry_string(rng: &mut Rng, shape: &Shape, side: &Side, counts: &mut Counts) {
    let mut theirs = side.list.iter();
    let mut at = EntryCursor::NOWHERE;
    for _ in 0..rng.between(5, 30) {
        let moved = match rng.below(10) {
            0 => {
                theirs.seek_to_first();
                raw::entry_first(&side.image, at)
            }
            1 | 2 => {
                let (key, number) = (shape.key(rng), shape.number(rng));
                theirs.seek(LookupKey::new(&key, number).memtable_key());
                raw::entry_seek(&side.image, at, &key, number)
            }
            3..=6 => {
                theirs.advance();
                raw::entry_next(&side.image, at)
            }
            _ => {
                theirs.prev();
                raw::entry_prev(&side.image, at)
            }
        };
        assert_eq!(moved.refusal, 0);
        at = moved.cursor();
        let ours = (at.on == 1).then(|| {
            let key = raw::entry_key(&side.image, at).of(&side.image).to_vec();
            (
                key,
                raw::entry_number(&side.image, at),
                raw::entry_kind(&side.image, at),
            )
        });
        let theirs = row(&theirs).map(|(bytes, _)| {
            let (length, offset, tag, _, _) = parse_memtable_key(&bytes);
            (bytes[offset..offset + length].to_vec(), tag >> 8, tag as u8)
        });
        assert_eq!(ours, theirs, "the entry cursor; the crate is on the right");
        counts.entry_moves += 1;
    }
}

fn one(rng: &mut Rng, cursors: &Cursors, counts: &mut Counts) {
    let shape = Shape::draw(rng, false);
    let as_crate = rng.one_in(2);
    let mut sides = [Side::new(rng), Side::new(rng)];
    let mut seen = HashSet::new();
    for _ in 0..*rng.pick(&[2, 6, 20, 60, 200]) {
        let (key, number) = (shape.key(rng), shape.number(rng));
        let side = &mut sides[rng.below(2)];
        if seen.insert((key.clone(), number)) && add(side, rng, &shape, &key, number, as_crate) {
            counts.entries += 1;
        }
    }
    for _ in 0..80 {
        lookup(&sides[rng.below(2)], &shape.key(rng), shape.number(rng), counts);
    }
    for _ in 0..3 {
        forward_string(rng, &shape, &sides, cursors, counts);
        let side = &sides[rng.below(2)];
        entry_string(rng, &shape, side, counts);
    }
}

fn main() {
    let args = Args::new();
    let (seed, cases) = (args.seed(), args.number("--cases", 15_000));
    println!("seed {seed}");
    let cursors = Cursors::new();
    let mut counts = Counts::default();
    for case in 0..cases {
        let mut rng = Rng::new(seed ^ case.wrapping_mul(0xd6e8_feb8_6659_fd93));
        one(&mut rng, &cursors, &mut counts);
    }
    println!("crate: {cases} cases, no disagreement");
    println!("    {counts:?}");
}
