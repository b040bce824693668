//! Who runs in the benchmarks: the library, a BTreeMap, and LevelDB where it is installed.

use crate::bench::{input, Contestant, Input, Task};
use crate::timing::{again, each, row_sum, timed, value_sum, Outcome};
use bavolinesk::raw::{self, Cursor};
use std::collections::BTreeMap;

/// The library through its raw calls.
pub struct Library {
    pub first: Vec<u8>,
    pub second: Vec<u8>,
}

impl Default for Library {
    fn default() -> Library {
        Library {
            first: vec![0; 65_536],
            second: vec![0; 65_536],
        }
    }
}

impl Library {
    // All items; how many got in.
    fn fill(&mut self, input: &Input) -> u64 {
        raw::fresh(&mut self.first);
        raw::fresh(&mut self.second);
        let mut held = 0;
        for item in &input.items {
            let image = if item.first { &mut self.first } else { &mut self.second };
            let added = raw::add(image, &item.key, item.number, item.kind, &item.value, item.height);
            held += u64::from(added.refusal == 0);
        }
        held
    }

    fn shown(&self, at: Cursor) -> u64 {
        let (one, two) = (&self.first, &self.second);
        row_sum(
            raw::row_key(one, two, at).of(one, two),
            raw::row_value(one, two, at).of(one, two),
        )
    }

    fn scan(&self, snapshot: u64, from: Cursor, step: fn(&[u8], &[u8], u64, Cursor) -> raw::Moved) -> (u64, u64) {
        let (mut at, mut rows, mut sum) = (from, 0, 0);
        while at.table != 0 {
            rows += 1;
            sum += self.shown(at);
            at = step(&self.first, &self.second, snapshot, at).cursor();
        }
        (rows, sum)
    }
}

impl Contestant for Library {
    fn name(&self) -> &'static str {
        "The library"
    }

    fn load(&mut self, input: &Input) {
        assert_eq!(self.fill(input), input.items.len() as u64);
    }

    fn run(&mut self, task: Task, input: &Input, times: u64) -> Option<Outcome> {
        let s = input.snapshot;
        if task == Task::Add {
            return timed(|| {
                let held: u64 = (0..times).map(|_| self.fill(input)).sum();
                (held, held)
            });
        }
        let (one, two) = (&self.first, &self.second);
        timed(|| match task {
            Task::Get => each(&input.probes, |key| {
                let found = raw::get(one, key, s);
                value_sum((found.answer == 1).then(|| raw::value(one, found.node).of(one)))
            }),
            Task::PairGet => each(&input.probes, |key| {
                let found = raw::pair_get(one, two, key, s);
                let image = if found.table == 1 { one } else { two };
                value_sum((found.answer == 1).then(|| raw::value(image, found.node).of(image)))
            }),
            Task::Presence => each(&input.items, |item| {
                u64::from(raw::contains(one, &item.key, item.number, item.kind).held)
            }),
            Task::Forward => again(times, || {
                self.scan(s, raw::first(one, two, s, Cursor::NOWHERE).cursor(), raw::next)
            }),
            Task::Backward => again(times, || {
                let at = raw::seek(one, two, s, Cursor::NOWHERE, &input.last_key).cursor();
                self.scan(s, at, raw::prev)
            }),
            Task::SeekNext => each(&input.probes, |key| {
                let mut at = raw::seek(one, two, s, Cursor::NOWHERE, key).cursor();
                let mut sum = 0;
                for _ in 0..10 {
                    if at.table == 0 {
                        break;
                    }
                    sum += self.shown(at);
                    at = raw::next(one, two, s, at).cursor();
                }
                sum
            }),
            Task::Check => again(times, || (1, u64::from(raw::check(one) && raw::check(two)))),
            Task::Add => (0, 0),
        })
    }
}

/// The looks of a lookup in one table: mean, most, and the bound.
pub fn looks(input: &Input) -> String {
    let mut library = Library::default();
    library.load(input);
    let looks: Vec<usize> = input
        .probes
        .iter()
        .map(|key| raw::get(&library.first, key, input.snapshot).looks)
        .collect();
    let mean = looks.iter().sum::<usize>() as f64 / looks.len() as f64;
    let nodes = input.items.iter().filter(|item| item.first).count();
    let most = looks.iter().max().copied().unwrap_or(0);
    format!("mean {mean:.1}, most {most}, bound {} ({nodes} nodes)", nodes + 12)
}

/// The most entries of a shape that fit into two tables, up to 4,096.
pub fn most(shape: &str, seed: u64) -> usize {
    let fits = |count: usize| Library::default().fill(&input(shape, count, seed)) == count as u64;
    let (mut low, mut high) = (64, 4_097);
    while low + 1 < high {
        let middle = (low + high) / 2;
        *if fits(middle) { &mut low } else { &mut high } = middle;
    }
    low
}

/// A BTreeMap from keys to their versions, the newest first.
#[derive(Default)]
pub struct Tree {
    first: Versions,
    both: Versions,
}

type Version = (u64, u8, Vec<u8>);
type Versions = BTreeMap<Vec<u8>, Vec<Version>>;

fn insert(map: &mut Versions, key: &[u8], number: u64, kind: u8, value: &[u8]) {
    let versions = map.entry(key.to_vec()).or_default();
    let at = versions.partition_point(|version| version.0 > number);
    versions.insert(at, (number, kind, value.to_vec()));
}

fn newest(versions: &[Version], snapshot: u64) -> Option<&[u8]> {
    let version = versions.iter().find(|version| version.0 <= snapshot)?;
    (version.1 == 1).then_some(&version.2)
}

impl Contestant for Tree {
    fn name(&self) -> &'static str {
        "BTreeMap"
    }

    fn load(&mut self, input: &Input) {
        *self = Tree::default();
        for item in &input.items {
            insert(&mut self.both, &item.key, item.number, item.kind, &item.value);
            if item.first {
                insert(&mut self.first, &item.key, item.number, item.kind, &item.value);
            }
        }
    }

    fn run(&mut self, task: Task, input: &Input, times: u64) -> Option<Outcome> {
        let s = input.snapshot;
        let get = |map: &Versions, key: &[u8]| value_sum(map.get(key).and_then(|versions| newest(versions, s)));
        let shown = |row: (&Vec<u8>, &Vec<Version>)| newest(row.1, s).map(|value| row_sum(row.0, value));
        match task {
            Task::Get => timed(|| each(&input.probes, |key| get(&self.first, key))),
            Task::PairGet => timed(|| each(&input.probes, |key| get(&self.both, key))),
            Task::Presence => timed(|| {
                each(&input.items, |item| {
                    let versions = self.first.get(&item.key).map_or(&[][..], Vec::as_slice);
                    u64::from(
                        versions
                            .iter()
                            .any(|version| (version.0, version.1) == (item.number, item.kind)),
                    )
                })
            }),
            Task::Add => timed(|| {
                again(times, || {
                    let mut map = Versions::new();
                    for item in &input.items {
                        insert(&mut map, &item.key, item.number, item.kind, &item.value);
                    }
                    (input.items.len() as u64, input.items.len() as u64)
                })
            }),
            Task::Forward => timed(|| {
                again(times, || {
                    self.both
                        .iter()
                        .filter_map(shown)
                        .fold((0, 0), |sum, one| (sum.0 + 1, sum.1 + one))
                })
            }),
            Task::Backward => timed(|| {
                let rows = || self.both.iter().rev().filter_map(shown);
                again(times, || rows().fold((0, 0), |sum, one| (sum.0 + 1, sum.1 + one)))
            }),
            Task::SeekNext => timed(|| {
                each(&input.probes, |key| {
                    let rows = self.both.range::<Vec<u8>, _>(key..).filter_map(shown);
                    rows.take(10).sum()
                })
            }),
            Task::Check => None,
        }
    }
}

/// The library, then LevelDB where it is installed, then a BTreeMap.
pub fn all() -> Vec<Box<dyn Contestant>> {
    let mut list: Vec<Box<dyn Contestant>> = vec![Box::new(Library::default())];
    #[cfg(leveldb)]
    list.push(Box::new(crate::bench_leveldb::LevelDb::default()));
    list.push(Box::new(Tree::default()));
    list
}
