// The library beside the crate, LevelDB where it is installed, and a BTreeMap.
//   benchmarks [--seed N|clock] [--rounds N]
use oracle::DB::{build_memtable_key, LdbIterator, MemtableKeyCmp, SkipMap, ValueType};
use oracle::{cmp, Cursors, Memory};
use runs::bench::{Contestant, Input, Item, Task};
use runs::contestants::{all, looks, most};
use runs::timing::{again, each, row_sum, timed, value_sum, Outcome};
use std::rc::Rc;

struct Crate {
    first: Memory,
    second: Memory,
    list: SkipMap,
    cursors: Cursors,
}

fn empty_list() -> SkipMap {
    SkipMap::new(Rc::new(Box::new(MemtableKeyCmp(cmp()))))
}

fn memtable_key(item: &Item) -> Vec<u8> {
    let kind = match item.kind {
        0 => ValueType::TypeDeletion,
        _ => ValueType::TypeValue,
    };
    build_memtable_key(&item.key, &item.value, kind, item.number)
}

fn fill(input: &Input) -> (Memory, Memory) {
    let (mut first, mut second) = (Memory::new(), Memory::new());
    for item in &input.items {
        let table = if item.first { &mut first } else { &mut second };
        table.add(&item.key, item.number, item.kind, &item.value);
    }
    (first, second)
}

impl Contestant for Crate {
    fn name(&self) -> &'static str {
        "rusty-leveldb 4.0.2"
    }

    fn load(&mut self, input: &Input) {
        (self.first, self.second) = fill(input);
        self.list = empty_list();
        for item in input.items.iter().filter(|item| item.first) {
            self.list.insert(memtable_key(item), Vec::new());
        }
    }

    fn run(&mut self, task: Task, input: &Input, times: u64) -> Option<Outcome> {
        let s = input.snapshot;
        let (first, second) = (&self.first, &self.second);
        match task {
            Task::Get => timed(|| each(&input.probes, |key| value_sum(first.get(key, s).0.as_deref()))),
            Task::PairGet => timed(|| {
                each(&input.probes, |key| match first.get(key, s) {
                    (None, false) => value_sum(second.get(key, s).0.as_deref()),
                    (value, _) => value_sum(value.as_deref()),
                })
            }),
            Task::Presence => {
                let keys: Vec<Vec<u8>> = input.items.iter().map(memtable_key).collect();
                timed(|| each(&keys, |key| u64::from(self.list.contains(key))))
            }
            Task::Add => timed(|| {
                again(times, || {
                    let (first, second) = fill(input);
                    let held = (first.0.len() + second.0.len()) as u64;
                    (held, held)
                })
            }),
            Task::Forward | Task::Backward => timed(|| {
                again(times, || {
                    let mut iter = self.cursors.over(first, second, s);
                    match task {
                        Task::Forward => iter.seek_to_first(),
                        _ => iter.seek(&input.last_key),
                    }
                    let (mut rows, mut sum) = (0, 0);
                    while let Some((key, value)) = iter.current() {
                        rows += 1;
                        sum += row_sum(&key, &value);
                        match task {
                            Task::Forward => iter.advance(),
                            _ => iter.prev(),
                        };
                    }
                    (rows, sum)
                })
            }),
            Task::SeekNext => {
                let mut iter = self.cursors.over(first, second, s);
                timed(|| {
                    each(&input.probes, |key| {
                        iter.seek(key);
                        let mut sum = 0;
                        for _ in 0..10 {
                            let Some((key, value)) = iter.current() else { break };
                            sum += row_sum(&key, &value);
                            iter.advance();
                        }
                        sum
                    })
                })
            }
            Task::Check => None,
        }
    }

    // Going backward it shows deleted keys and loses a finished table.
    fn strays(&self, task: Task) -> bool {
        task == Task::Backward
    }
}

fn main() {
    let mut contestants = all();
    contestants.insert(
        1,
        Box::new(Crate {
            first: Memory::new(),
            second: Memory::new(),
            list: empty_list(),
            cursors: Cursors::new(),
        }),
    );
    runs::bench::main("", contestants, most, looks);
}
