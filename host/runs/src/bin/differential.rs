// The library against a plain model of document 01, pairs of tables that must show the same rows against each other, and the library
// against LevelDB where it is installed.
//   differential [--seed N|clock] [--cases N] [--pairs N] [--databases N]
// The run against the crate is oracle/run differential.
use runs::args::Args;
use runs::draw::draw;
use runs::ops::Counts;
use runs::rng::Rng;
use runs::script::{run, shrink};
use std::process::exit;

fn against_model(seed: u64, cases: u64) {
    let mut counts = Counts::default();
    for case in 0..cases {
        let ops = draw(&mut Rng::new(
            seed.wrapping_add(case.wrapping_mul(0x2545_f491_4f6c_dd1d)),
        ));
        if run(&ops, &mut counts).is_err() {
            let (ops, words) = shrink(ops);
            println!("model: case {case} of seed {seed} disagrees; the least script found:");
            for op in &ops {
                println!("    {op:?}");
            }
            println!("{words}");
            exit(1);
        }
    }
    println!("model: {cases} cases, no disagreement");
    println!("    {counts:?}");
}

#[cfg(leveldb)]
fn against_leveldb(seed: u64, databases: u64) {
    let counts = runs::against_leveldb::run(seed, databases);
    println!("leveldb: {databases} databases, no disagreement");
    println!("    {counts:?}");
}

#[cfg(not(leveldb))]
fn against_leveldb(_seed: u64, _databases: u64) {
    println!("leveldb: SKIPPED, its C header and library were not there when this was built (libleveldb-dev)");
}

fn main() {
    let args = Args::new();
    let seed = args.seed();
    println!("seed {seed}");
    against_model(seed, args.number("--cases", 40_000));
    let pairs = args.number("--pairs", 10_000);
    let counts = runs::independence::run(seed, pairs);
    println!("independence: {pairs} couples of pairs show the same rows");
    println!("    {counts:?}");
    against_leveldb(seed, args.number("--databases", 150));
}
