//! LevelDB in the benchmarks.

use crate::bench::{Contestant, Input, Item, Task};
use crate::leveldb::{Database, View};
use crate::timing::{again, each, row_sum, timed, value_sum, Outcome};

/// LevelDB: one database with the first table's entries, and one with all of them. Its addition writes a log too.
#[derive(Default)]
pub struct LevelDb {
    databases: Option<(Database, Database)>,
}

fn put(database: &Database, item: &Item) {
    match item.kind {
        1 => database.put(&item.key, &item.value),
        _ => database.delete(&item.key),
    }
}

fn get(view: &View<'_>, key: &[u8]) -> u64 {
    view.with_value(key, |value| value_sum(Some(value))).unwrap_or(1)
}

impl Contestant for LevelDb {
    fn name(&self) -> &'static str {
        "LevelDB 1.23"
    }

    fn load(&mut self, input: &Input) {
        self.databases = None;
        let (first, both) = (Database::new("first"), Database::new("both"));
        for item in &input.items {
            put(&both, item);
            if item.first {
                put(&first, item);
            }
        }
        self.databases = Some((first, both));
    }

    fn run(&mut self, task: Task, input: &Input, times: u64) -> Option<Outcome> {
        let (first, both) = self.databases.as_ref()?;
        let (first, both) = (first.view(), both.view());
        match task {
            Task::Get => timed(|| each(&input.probes, |key| get(&first, key))),
            Task::PairGet => timed(|| each(&input.probes, |key| get(&both, key))),
            Task::Presence | Task::Check => None,
            Task::Add => {
                let database = Database::new("add");
                timed(|| {
                    again(times, || {
                        input.items.iter().for_each(|item| put(&database, item));
                        (input.items.len() as u64, input.items.len() as u64)
                    })
                })
            }
            Task::Forward | Task::Backward => timed(|| {
                again(times, || {
                    let (mut iter, mut rows, mut sum) = (both.iter(), 0, 0);
                    match task {
                        Task::Forward => iter.first(),
                        _ => iter.last(),
                    }
                    while let Some((key, value)) = iter.row() {
                        rows += 1;
                        sum += row_sum(key, value);
                        match task {
                            Task::Forward => iter.next(),
                            _ => iter.prev(),
                        }
                    }
                    (rows, sum)
                })
            }),
            Task::SeekNext => {
                let mut iter = both.iter();
                timed(|| {
                    each(&input.probes, |key| {
                        iter.seek(key);
                        let mut sum = 0;
                        for _ in 0..10 {
                            let Some((key, value)) = iter.row() else { break };
                            sum += row_sum(key, value);
                            iter.next();
                        }
                        sum
                    })
                })
            }
        }
    }
}
