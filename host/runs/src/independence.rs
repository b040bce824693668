//! Two pairs of tables with the same entries up to a snapshot, and all else different: heights, order of arrival, the split between
//! the tables, and later entries, some of them added between two moves. Any string of moves shows the same rows in both.

use crate::gen::Shape;
use crate::model::{Entry, MAX_NUMBER};
use crate::rng::Rng;
use bavolinesk::raw::{self, Cursor};
use std::collections::HashSet;

#[derive(Debug, Default)]
pub struct Counts {
    pub entries: u64,
    pub later: u64,
    pub moves: u64,
    pub rows: u64,
    pub lookups: u64,
}

type Row = Option<(Vec<u8>, Vec<u8>)>;

struct Pair {
    images: [Vec<u8>; 2],
    at: Cursor,
}

impl Pair {
    fn new() -> Pair {
        let mut images = [vec![0; 16_384], vec![0; 16_384]];
        images.iter_mut().for_each(|image| assert_eq!(raw::fresh(image), 0));
        Pair {
            images,
            at: Cursor::NOWHERE,
        }
    }

    // Adds to either table at any height; whether it was accepted.
    fn add(&mut self, rng: &mut Rng, shape: &Shape, entry: &Entry) -> bool {
        let Entry {
            key,
            number,
            kind,
            value,
        } = entry;
        let image = &mut self.images[rng.below(2)];
        let refusal = raw::add(image, key, *number, *kind, value, shape.height(rng)).refusal;
        assert!(refusal == 0 || refusal == 8, "refusal {refusal}");
        refusal == 0
    }

    // Further entries above the snapshot, which may stand in one pair alone.
    fn add_later(&mut self, rng: &mut Rng, shape: &Shape, snapshot: u64) -> u64 {
        if snapshot == MAX_NUMBER {
            return 0;
        }
        let number = snapshot + 1 + shape.number(rng) % (MAX_NUMBER - snapshot);
        let (key, kind, value) = (shape.key(rng), shape.kind(rng), shape.value(rng));
        u64::from(self.add(
            rng,
            shape,
            &Entry {
                key,
                number,
                kind,
                value,
            },
        ))
    }

    fn step(&mut self, how: usize, key: &[u8], snapshot: u64) -> Row {
        let [one, two] = &self.images;
        let moved = match how {
            0 => raw::first(one, two, snapshot, self.at),
            1 => raw::seek(one, two, snapshot, self.at, key),
            2 | 3 => raw::next(one, two, snapshot, self.at),
            _ => raw::prev(one, two, snapshot, self.at),
        };
        assert_eq!(moved.refusal, 0);
        self.at = moved.cursor();
        let (key, value) = (raw::row_key(one, two, self.at), raw::row_value(one, two, self.at));
        (self.at.table != 0).then(|| (key.of(one, two).to_vec(), value.of(one, two).to_vec()))
    }
}

fn lookup(image: &[u8], key: &[u8], snapshot: u64) -> (u32, Vec<u8>) {
    let found = raw::get(image, key, snapshot);
    let value = if found.answer == 1 {
        raw::value(image, found.node).of(image)
    } else {
        &[]
    };
    assert_eq!(found.refusal, 0);
    (found.answer, value.to_vec())
}

fn one(rng: &mut Rng, counts: &mut Counts) {
    let shapes = [Shape::draw(rng, false), Shape::draw(rng, false)];
    let shape = shapes[0];
    let snapshot = shape.number(rng);
    let mut seen = HashSet::new();
    let mut entries = Vec::new();
    let (mut pairs, mut singles) = ([Pair::new(), Pair::new()], [vec![0u8; 32_768], vec![0u8; 32_768]]);
    singles.iter_mut().for_each(|image| assert_eq!(raw::fresh(image), 0));
    for _ in 0..rng.between(1, 40) {
        let (key, number) = (shape.key(rng), shape.number(rng) % (snapshot + 1));
        let (kind, value) = (shape.kind(rng), shape.value(rng));
        if seen.insert((key.clone(), number)) {
            entries.push(Entry {
                key,
                number,
                kind,
                value,
            });
        }
    }
    for (pair, image) in pairs.iter_mut().zip(&mut singles) {
        // Another order of arrival, and later entries in between.
        for at in (1..entries.len()).rev() {
            entries.swap(at, rng.below(at + 1));
        }
        for entry in &entries {
            let height = shapes[1].height(rng);
            assert!(pair.add(rng, &shapes[1], entry));
            assert_eq!(
                raw::add(image, &entry.key, entry.number, entry.kind, &entry.value, height).refusal,
                0
            );
            if rng.one_in(3) {
                counts.later += pair.add_later(rng, &shape, snapshot);
            }
        }
    }
    counts.entries += entries.len() as u64;
    for _ in 0..rng.between(5, 40) {
        let (how, key) = (rng.below(7), shape.key(rng));
        let [a, b] = &mut pairs;
        let (left, right) = (a.step(how, &key, snapshot), b.step(how, &key, snapshot));
        assert_eq!(left, right, "move {how}, key {key:02x?}, snapshot {snapshot}");
        counts.moves += 1;
        counts.rows += u64::from(left.is_some());
        let [c, d] = &singles;
        assert_eq!(
            lookup(c, &key, snapshot),
            lookup(d, &key, snapshot),
            "key {key:02x?}, snapshot {snapshot}"
        );
        counts.lookups += 1;
        let pair = &mut pairs[rng.below(2)];
        counts.later += pair.add_later(rng, &shape, snapshot);
        // Now and then an entry up to the snapshot, between two moves, in both.
        let number = shape.number(rng) % (snapshot + 1);
        if rng.one_in(4) && seen.insert((key.clone(), number)) {
            let (kind, value) = (shape.kind(rng), shape.value(rng));
            let entry = Entry {
                key,
                number,
                kind,
                value,
            };
            pairs
                .iter_mut()
                .for_each(|pair| assert!(pair.add(rng, &shapes[1], &entry)));
        }
    }
}

/// So many couples of pairs; panics at the first that shows different rows.
pub fn run(seed: u64, cases: u64) -> Counts {
    let mut counts = Counts::default();
    for case in 0..cases {
        one(
            &mut Rng::new(seed ^ case.wrapping_mul(0x8cb9_2ba7_2f3d_8dd7)),
            &mut counts,
        );
    }
    counts
}
