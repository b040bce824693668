//! The model's answers as lines.

use crate::gen::Shape;
use crate::model::{Entry, Model};
use crate::moves::{entry_move, row_move, table_of, Move};
use crate::records::{short_key, Writer, MODEL};
use crate::rng::Rng;
use crate::script::{as_numbers, pair_get};
use crate::words::{bytes, entry, hex_words, looked, mark, presence, refused_move, refused_or, TABLES};
use bavolinesk::raw::{Cursor, EntryCursor};

/// A case of the model: every call, wild arguments and cursors among them, and the bytes of both images at the end.
pub fn case(writer: &mut Writer, rng: &mut Rng) {
    let wild = rng.one_in(2);
    let shape = Shape::draw(rng, wild);
    let length = |rng: &mut Rng| if rng.one_in(12) { 63 } else { rng.between(64, 420) };
    writer.case([length(rng), length(rng)]);
    let (mut at, mut entry_at) = (Cursor::NOWHERE, [EntryCursor::NOWHERE; 2]);
    for _ in 0..rng.between(8, 40) {
        let (t, key, number) = (rng.below(2), short_key(rng, &shape), shape.number(rng));
        let kind = shape.kind(rng);
        match rng.below(16) {
            0..=4 => {
                let (mut value, height) = (shape.value(rng), shape.height(rng).min(255));
                value.truncate(8);
                let added = Entry {
                    key,
                    number,
                    kind,
                    value,
                };
                writer.add(MODEL, t, added, height);
            }
            5 | 6 => get(writer, t, &key, number),
            7 => contains(writer, t, &key, number, kind),
            8 if rng.one_in(2) => get_in_pair(writer, &key, number),
            8 => {
                let answer = if writer.models[t].bad_header {
                    "not sound"
                } else {
                    "sound"
                };
                writer.call(MODEL, &format!("check {}", TABLES[t]), answer);
            }
            9..=11 => {
                if rng.one_in(10) {
                    let (on, node) = (rng.below(3) as u32, rng.below(9));
                    entry_at[t] = EntryCursor { on, node };
                    writer.line(&format!("entry_cursor {} {on} {node}", TABLES[t]));
                }
                entry_at[t] = model_entry_move(writer, rng, t, entry_at[t], key, number);
            }
            _ => {
                if rng.one_in(10) {
                    let (table, node) = (rng.below(4) as u32, rng.below(9));
                    at = Cursor { table, node };
                    writer.line(&format!("cursor {table} {node}"));
                }
                at = model_move(writer, rng, at, key, number);
            }
        }
    }
    for t in 0..2 {
        parts(writer, rng, t);
    }
}

fn value_of(model: &Model, node: usize) -> String {
    bytes(model.entry(node).map_or(&[], |entry| &entry.value))
}

fn get(writer: &mut Writer, t: usize, key: &[u8], number: u64) {
    let model = &writer.models[t];
    let (refusal, answer, looks) = model.get(key, number);
    let (answer, node) = as_numbers(answer);
    let found = || format!("{} node {node}", value_of(model, node));
    let answer = refused_or(refusal, || looked(answer, looks, found));
    writer.call(MODEL, &format!("get {} {}@{number}", TABLES[t], bytes(key)), &answer);
}

fn contains(writer: &mut Writer, t: usize, key: &[u8], number: u64, kind: u8) {
    let (refusal, held, looks) = writer.models[t].contains(key, number, kind);
    let answer = refused_or(refusal, || presence(held, looks));
    let call = format!("contains {} {}@{number}{}", TABLES[t], bytes(key), mark(kind));
    writer.call(MODEL, &call, &answer);
}

fn get_in_pair(writer: &mut Writer, key: &[u8], number: u64) {
    let told = pair_get(&writer.models, key, number);
    let found = || {
        let t = told.table as usize - 1;
        let value = value_of(&writer.models[t], told.node);
        format!("{value} in {} node {}", TABLES[t], told.node)
    };
    let answer = refused_or(told.refusal, || looked(told.answer, told.looks, found));
    writer.call(MODEL, &format!("pair_get {}@{number}", bytes(key)), &answer);
}

/// Some of an image's bytes, eight at a time.
fn parts(writer: &mut Writer, rng: &mut Rng, t: usize) {
    let image = writer.models[t].image.clone();
    for (index, part) in image.chunks(8).enumerate().filter(|_| rng.one_in(8)) {
        let call = format!("bytes {} {} {}", TABLES[t], 8 * index, part.len());
        writer.call(MODEL, &call, &hex_words(part));
    }
}

fn draw_move(rng: &mut Rng, key: Vec<u8>) -> (&'static str, Move) {
    match rng.below(6) {
        0 => ("first", Move::First),
        1 => ("seek", Move::Seek(key)),
        2 | 3 => ("next", Move::Next),
        _ => ("prev", Move::Prev),
    }
}

/// The key that a seek seeks, with the number; of another move nothing.
fn sought(how: &Move, number: u64) -> String {
    match how {
        Move::Seek(key) => format!("{}@{number}", bytes(key)),
        _ => String::new(),
    }
}

fn model_move(writer: &mut Writer, rng: &mut Rng, at: Cursor, key: Vec<u8>, number: u64) -> Cursor {
    let (name, how) = draw_move(rng, key);
    let [first, second] = &writer.models;
    let (refusal, to) = row_move(first, second, number, at, &how);
    let shown = table_of(first, second, to).and_then(|model| model.entry(to.node));
    let answer = match (refusal, shown) {
        (0, Some(entry)) => {
            let (key, value) = (bytes(&entry.key), bytes(entry.shown()));
            format!("{key}={value} in {} node {}", TABLES[to.table as usize - 1], to.node)
        }
        (0, None) => "nowhere".into(),
        _ => refused_move(refusal, to.table, to.node),
    };
    let call = match &how {
        Move::Seek(_) => format!("{name} {}", sought(&how, number)),
        _ => format!("{name} @{number}"),
    };
    writer.call(MODEL, &call, &answer);
    to
}

fn model_entry_move(
    writer: &mut Writer,
    rng: &mut Rng,
    t: usize,
    at: EntryCursor,
    key: Vec<u8>,
    number: u64,
) -> EntryCursor {
    let (name, how) = draw_move(rng, key);
    let model = &writer.models[t];
    let (refusal, to) = entry_move(model, at, &how, number);
    let answer = match (refusal, model.entry(to.node).filter(|_| to.on == 1)) {
        (0, Some(held)) => {
            let value = held.shown().to_vec();
            let shown = Entry { value, ..held.clone() };
            format!("{} node {}", entry(&shown), to.node)
        }
        (0, None) => "nowhere".into(),
        _ => refused_move(refusal, to.on, to.node),
    };
    let call = format!("entry_{name} {} {}", TABLES[t], sought(&how, number));
    writer.call(MODEL, call.trim_end(), &answer);
    to
}
