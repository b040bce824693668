//! LevelDB's answers as lines.

use crate::gen::Shape;
use crate::leveldb::Database;
use crate::model::Entry;
use crate::records::{short_key, Writer, LEVELDB, SET_UP};
use crate::rng::Rng;
use crate::words::bytes;

/// A case: writes numbered 1, 2, 3, split between two tables; then scans, seeks and lookups at some snapshots.
pub fn case(writer: &mut Writer, rng: &mut Rng, name: u64) {
    let shape = Shape::draw(rng, false);
    let database = Database::new(&format!("record{name}"));
    let writes = rng.between(3, 14) as u64;
    let turn = rng.below(writes as usize + 1) as u64;
    let newer_first = rng.one_in(2);
    writer.case([700, 700]);
    let mut views = Vec::new();
    for number in 1..=writes {
        let (key, kind, mut value) = (short_key(rng, &shape), shape.kind(rng), shape.value(rng));
        value.truncate(8);
        match kind {
            1 => database.put(&key, &value),
            _ => database.delete(&key),
        }
        let to_first = if newer_first { number > turn } else { rng.one_in(2) };
        let entry = Entry {
            key,
            number,
            kind,
            value,
        };
        assert!(
            writer.add(SET_UP, usize::from(!to_first), entry, rng.tower()),
            "room for a few entries"
        );
        views.push(database.view());
    }
    for (index, view) in views.iter().enumerate() {
        if !rng.one_in(3) {
            continue;
        }
        let snapshot = index as u64 + 1;
        let mut iter = view.iter();
        for _ in 0..2 {
            let key = short_key(rng, &shape);
            match rng.one_in(2) {
                true => {
                    iter.first();
                    writer.moved(LEVELDB, &format!("first @{snapshot}"), iter.row());
                }
                false => {
                    iter.seek(&key);
                    let call = format!("seek {}@{snapshot}", bytes(&key));
                    writer.moved(LEVELDB, &call, iter.row());
                }
            }
            // Forward for some rows, then backward; only while there is a row.
            let turn = rng.below(5);
            for step in 0..9 {
                if !iter.valid() {
                    break;
                }
                match step < turn {
                    true => iter.next(),
                    false => iter.prev(),
                }
                let name = if step < turn { "next" } else { "prev" };
                writer.moved(LEVELDB, &format!("{name} @{snapshot}"), iter.row());
            }
            if newer_first {
                writer.row(LEVELDB, &key, snapshot, view.get(&key).as_deref());
            }
        }
    }
}
