// The library beside LevelDB, where it is installed, and a BTreeMap.
//   benchmarks [--seed N|clock] [--rounds N]
// With the crate beside them: oracle/run benchmarks.
use runs::contestants::{all, looks, most};

fn main() {
    runs::bench::main("crate: SKIPPED here, oracle/run benchmarks has it", all(), most, looks);
}
