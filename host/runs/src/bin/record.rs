// Writes answers of the model, and of LevelDB where it is installed, as lines of a text; or replays one.
//   record FILE [--seed N|clock]        record --replay FILE
// With the crate's answers too: oracle/run record FILE.
fn main() {
    runs::recorder::main("crate: SKIPPED here, oracle/run record has its answers", |_, _| ());
}
