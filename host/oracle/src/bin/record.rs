// Writes answers of the model, the crate and LevelDB as lines of a text; or replays one.
//   record FILE [--seed N|clock]        record --replay FILE
use oracle::DB::LdbIterator;
use oracle::{row, Cursors, Memory};
use runs::gen::Shape;
use runs::model::Entry;
use runs::records::{short_key, Writer, CRATE, HEADING, SET_UP};
use runs::rng::Rng;
use runs::words::{bytes, TABLES};
use std::collections::HashSet;

// A case: no key and number twice; lookups in each table, and strings of first, seek and next at one snapshot each.
fn case(writer: &mut Writer, rng: &mut Rng, cursors: &Cursors) {
    let shape = Shape::draw(rng, false);
    let mut tables = [Memory::new(), Memory::new()];
    let mut seen = HashSet::new();
    writer.case([700, 700]);
    for _ in 0..rng.between(2, 14) {
        let (key, number, kind) = (short_key(rng, &shape), shape.number(rng), shape.kind(rng));
        let (t, mut value) = (rng.below(2), shape.value(rng));
        value.truncate(8);
        if !seen.insert((key.clone(), number)) {
            continue;
        }
        tables[t].add(&key, number, kind, &value);
        let height = shape.height(rng);
        let entry = Entry {
            key,
            number,
            kind,
            value,
        };
        assert!(writer.add(SET_UP, t, entry, height), "room for a few entries");
    }
    for _ in 0..8 {
        let (t, key, snapshot) = (rng.below(2), short_key(rng, &shape), shape.number(rng));
        let (value, deleted) = tables[t].get(&key, snapshot);
        let answer = match (&value, deleted) {
            (Some(value), _) => format!("found {} ..", bytes(value)),
            (None, true) => "deleted ..".into(),
            (None, false) => "absent ..".into(),
        };
        writer.call(CRATE, &format!("get {} {}@{snapshot}", TABLES[t], bytes(&key)), &answer);
    }
    for _ in 0..2 {
        let snapshot = shape.number(rng);
        let mut iter = cursors.over(&tables[0], &tables[1], snapshot);
        for step in 0..rng.between(3, 9) {
            let key = short_key(rng, &shape);
            let call = match rng.below(8) {
                1 => {
                    iter.seek(&key);
                    format!("seek {}@{snapshot}", bytes(&key))
                }
                drawn if drawn == 0 || step == 0 => {
                    iter.seek_to_first();
                    format!("first @{snapshot}")
                }
                _ => {
                    iter.advance();
                    format!("next @{snapshot}")
                }
            };
            let row = row(&iter);
            let row = row.as_ref().map(|(key, value)| (key.as_slice(), value.as_slice()));
            writer.moved(CRATE, &call, row);
        }
    }
}

fn main() {
    runs::recorder::main("", |writer, rng| {
        let cursors = Cursors::new();
        writer.line(&format!("\n{HEADING} of the crate rusty-leveldb 4.0.2"));
        for _ in 0..60 {
            case(writer, rng, &cursors);
        }
    });
}
