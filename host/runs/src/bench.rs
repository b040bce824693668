//! Benchmarks: the same inputs for every contestant, in one run, on one pinned core; medians and ratios as a table.

use crate::args::Args;
use crate::rng::Rng;
use crate::timing::Outcome;
use std::collections::BTreeMap;
use std::process::Command;

pub struct Item {
    pub key: Vec<u8>,
    pub number: u64,
    pub kind: u8,
    pub value: Vec<u8>,
    pub height: usize,
    /// Whether it goes to the first table, the newer.
    pub first: bool,
}

/// Entries numbered 1, 2, 3 in order of arrival, and keys to look for.
pub struct Input {
    pub name: String,
    pub items: Vec<Item>,
    pub probes: Vec<Vec<u8>>,
    pub snapshot: u64,
    /// The greatest key that has a row.
    pub last_key: Vec<u8>,
}

#[derive(Clone, Copy, Debug, PartialEq, Eq)]
pub enum Task {
    Get,
    PairGet,
    Presence,
    Add,
    Forward,
    Backward,
    SeekNext,
    Check,
}

pub const TASKS: [(Task, &str); 8] = [
    (Task::Get, "get, one table"),
    (Task::PairGet, "get, two tables"),
    (Task::Presence, "presence, one table"),
    (Task::Add, "add"),
    (Task::Forward, "forward scan, a row"),
    (Task::Backward, "backward scan, a row"),
    (Task::SeekNext, "seek and 10 next"),
    (Task::Check, "check, two tables"),
];

pub trait Contestant {
    fn name(&self) -> &'static str;
    /// Takes the input up, untimed.
    fn load(&mut self, input: &Input);
    /// Does a task over the whole input so many times; none where it has no such task.
    fn run(&mut self, task: Task, input: &Input, times: u64) -> Option<Outcome>;
    /// Whether its answers to a task are not the others'.
    fn strays(&self, _task: Task) -> bool {
        false
    }
}

fn long_key(rng: &mut Rng, index: usize) -> Vec<u8> {
    let mut key = format!(
        "0000:{:02x}:{:02x}.{} function {index:04x}",
        index / 64,
        index % 64,
        index % 8
    )
    .into_bytes();
    key.resize(16 + key.len() % 8 + rng.below(17), b'.');
    key.extend((index as u16).to_be_bytes());
    key
}

fn short_key(_: &mut Rng, index: usize) -> Vec<u8> {
    (index as u32).wrapping_mul(0x9e37_79b1).to_be_bytes().to_vec()
}

/// So many entries: of ten, one is a further value of a key that is there, one a deletion of such a key, the rest new keys.
pub fn input(shape: &str, count: usize, seed: u64) -> Input {
    let mut rng = Rng::new(seed);
    let (make, value_len) = match shape {
        "long keys" => (long_key as fn(&mut Rng, usize) -> Vec<u8>, 8),
        _ => (short_key as fn(&mut Rng, usize) -> Vec<u8>, 0),
    };
    let mut keys: Vec<Vec<u8>> = Vec::new();
    let mut items = Vec::new();
    for number in 1..=count as u64 {
        let old = if keys.is_empty() { 9 } else { rng.below(10) };
        let key = match old {
            0 | 1 => keys[rng.below(keys.len())].clone(),
            _ => make(&mut rng, keys.len()),
        };
        if old > 1 {
            keys.push(key.clone());
        }
        let kind = u8::from(old != 1);
        let value = rng.bytes(if kind == 1 { value_len } else { 0 });
        let height = rng.tower();
        let first = number > count as u64 / 2;
        items.push(Item {
            key,
            number,
            kind,
            value,
            height,
            first,
        });
    }
    // Arrival is not in the order of keys.
    for at in (1..items.len()).rev() {
        let other = rng.below(at + 1);
        let (a, b) = (items[at].key.clone(), items[other].key.clone());
        (items[at].key, items[other].key) = (b, a);
    }
    let mut probes = Vec::new();
    for _ in 0..2_000 {
        let mut key = items[rng.below(items.len())].key.clone();
        if rng.one_in(4) {
            key.push(b'?');
        }
        probes.push(key);
    }
    // Of each key the last entry counts, as numbers ascend.
    let rows: BTreeMap<&[u8], u8> = items.iter().map(|item| (item.key.as_slice(), item.kind)).collect();
    let last = rows.iter().rev().find(|(_, kind)| **kind == 1);
    let last_key = last.map_or(Vec::new(), |(key, _)| key.to_vec());
    let name = format!("{count} entries, {shape}");
    let snapshot = count as u64;
    Input {
        name,
        items,
        probes,
        snapshot,
        last_key,
    }
}

fn median(mut times: Vec<f64>) -> f64 {
    times.sort_by(f64::total_cmp);
    times[times.len() / 2]
}

fn times(task: Task, input: &Input) -> u64 {
    let count = input.items.len() as u64;
    match task {
        Task::Get | Task::PairGet | Task::Presence | Task::SeekNext => 1,
        Task::Add => (2_000 / count).max(1),
        Task::Forward | Task::Backward => (4_000 / count).max(1),
        Task::Check => (4_000 / count).max(1),
    }
}

fn figure(nanos: Option<f64>) -> String {
    match nanos {
        None => "-".into(),
        Some(nanos) if nanos >= 10_000.0 => format!("{:.1} us", nanos / 1_000.0),
        Some(nanos) => format!("{nanos:.0} ns"),
    }
}

/// One input: a line for each task.
fn measure(input: &Input, contestants: &mut [Box<dyn Contestant>], rounds: usize) {
    for contestant in contestants.iter_mut() {
        contestant.load(input);
    }
    for (task, name) in TASKS {
        let mut nanos: Vec<Vec<f64>> = vec![Vec::new(); contestants.len()];
        let mut sums = Vec::new();
        for round in 0..=rounds {
            for (index, contestant) in contestants.iter_mut().enumerate() {
                let Some(outcome) = contestant.run(task, input, times(task, input)) else {
                    continue;
                };
                // The first round warms up, and holds the answers together.
                if round > 0 {
                    nanos[index].push(outcome.took.as_nanos() as f64 / outcome.operations.max(1) as f64);
                } else if !contestant.strays(task) {
                    sums.push((contestant.name(), outcome.operations, outcome.sum));
                }
            }
        }
        let alike = sums.iter().all(|sum| (sum.1, sum.2) == (sums[0].1, sums[0].2));
        assert!(alike, "{name} of {}: the answers differ: {sums:?}", input.name);
        let medians: Vec<Option<f64>> = nanos
            .into_iter()
            .map(|list| (!list.is_empty()).then(|| median(list)))
            .collect();
        let own = medians[0].unwrap_or(0.0);
        let mut line = format!("| {} | {name} | {} |", input.name, figure(medians[0]));
        for (other, contestant) in medians[1..].iter().zip(&contestants[1..]) {
            let mark = if contestant.strays(task) { "*" } else { "" };
            let ratio = other.map_or(String::new(), |other| format!(" ({:.2}{mark})", own / other));
            line.push_str(&format!(" {}{ratio} |", figure(*other)));
        }
        println!("{line}");
    }
}

/// Runs this program again on one core, where `taskset` is there and it has not been done.
fn pin() {
    if std::env::var_os("BAVOLINESK_PINNED").is_some() {
        return;
    }
    let Ok(program) = std::env::current_exe() else { return };
    let core = std::thread::available_parallelism()
        .map_or(0, |cores| cores.get() - 1)
        .to_string();
    let mut command = Command::new("taskset");
    command
        .args(["-c", &core])
        .arg(program)
        .args(std::env::args_os().skip(1));
    match command.env("BAVOLINESK_PINNED", &core).status() {
        Ok(status) => std::process::exit(status.code().unwrap_or(1)),
        Err(_) => println!("not pinned: there is no taskset"),
    }
}

/// The benchmark: the library is the first contestant. `looks` says what its searches take.
pub fn main(
    note: &str,
    mut contestants: Vec<Box<dyn Contestant>>,
    most: fn(&str, u64) -> usize,
    looks: fn(&Input) -> String,
) {
    pin();
    if !note.is_empty() {
        println!("{note}");
    }
    if cfg!(not(leveldb)) {
        println!("leveldb: SKIPPED, it was not there when this was built (libleveldb-dev)");
    }
    let args = Args::new();
    let (seed, rounds) = (args.seed(), args.number("--rounds", 31) as usize);
    println!(
        "seed {seed}, {rounds} rounds, core {}",
        std::env::var("BAVOLINESK_PINNED").unwrap_or_default()
    );
    println!("Medians of the processor time of an operation; in brackets how many times the library takes of it.\n");
    let names: Vec<&str> = contestants.iter().map(|contestant| contestant.name()).collect();
    println!("| Input | Task | {} |", names.join(" | "));
    println!("|---|---|{}", "---|".repeat(names.len()));
    let inputs: Vec<Input> = [
        ("long keys", 64),
        ("long keys", 512),
        ("long keys", 4_096),
        ("short keys", 4_096),
    ]
    .into_iter()
    .map(|(shape, count)| input(shape, count.min(most(shape, seed)), seed))
    .collect();
    for input in &inputs {
        measure(input, &mut contestants, rounds);
    }
    if TASKS
        .iter()
        .any(|(task, _)| contestants.iter().any(|contestant| contestant.strays(*task)))
    {
        println!("\n* It does not show the same rows there, so its time is for the rows that it shows.");
    }
    println!("\n| Input | Looks of a get in one table |\n|---|---|");
    for input in &inputs {
        println!("| {} | {} |", input.name, looks(input));
    }
}
