//! Scripts of calls, run side by side on the library and on the model, and cut down where the two disagree.

use crate::model::{Answer, Entry, Model};
use crate::moves::{entry_move, entry_refusal, row_move, row_refusal, table_of, Move};
use crate::ops::{Counts, Op};
use bavolinesk::raw::{self, Cursor, EntryCursor};
use std::fmt::Debug;

struct State {
    images: [Box<[u8]>; 2],
    models: [Model; 2],
    entry_at: [EntryCursor; 2],
    at: Cursor,
    kept: Option<(Cursor, Vec<u8>, Vec<u8>)>,
}

fn same<T: Debug + PartialEq>(what: &str, library: T, model: T) -> Result<(), String> {
    if library == model {
        return Ok(());
    }
    Err(format!("{what}: the library says {library:?}, the model {model:?}"))
}

// Parts that are not empty stand where the node's own bytes are; without a node they are (0, 0).
fn stands(expected: Option<[(usize, usize); 2]>, got: [(usize, usize); 2]) -> Result<(), String> {
    let expected = expected.unwrap_or_default();
    for (expected, got) in expected.into_iter().zip(got) {
        if expected.1 > 0 || got.1 > 0 || expected == (0, 0) {
            same("where a view stands", got, expected)?;
        }
    }
    Ok(())
}

fn new_table(length: usize, fill: u8) -> (Box<[u8]>, Model, u32, u32) {
    let mut image = vec![fill; length].into_boxed_slice();
    let (model, expected) = Model::fresh(vec![fill; length]);
    let refusal = raw::fresh(&mut image);
    (image, model, refusal, expected)
}

impl State {
    fn new() -> State {
        let [(one, first), (two, second)] = [0, 0].map(|_| {
            let (image, model, _, _) = new_table(256, 0);
            (image, model)
        });
        State {
            images: [one, two],
            models: [first, second],
            entry_at: [EntryCursor::NOWHERE; 2],
            at: Cursor::NOWHERE,
            kept: None,
        }
    }

    fn step(&mut self, op: &Op, counts: &mut Counts) -> Result<u32, String> {
        let (models, images) = (&mut self.models, &mut self.images);
        match op {
            Op::Fresh(t, length, fill) => {
                let (image, model, refusal, expected) = new_table(*length, *fill);
                (images[*t], models[*t]) = (image, model);
                self.entry_at[*t] = EntryCursor::NOWHERE;
                (self.at, self.kept) = (Cursor::NOWHERE, None);
                same("fresh", refusal, expected)?;
                Ok(refusal)
            }
            Op::Spoil(t, field) => {
                if let Some(byte) = images[*t].get_mut(*field) {
                    *byte = 0xee;
                    models[*t].image[*field] = 0xee;
                    models[*t].bad_header = true;
                }
                self.kept = None;
                Ok(0)
            }
            Op::Add(t, entry, height) => {
                counts.adds += 1;
                let expected = models[*t].add(entry.clone(), *height);
                let Entry {
                    key,
                    number,
                    kind,
                    value,
                } = entry;
                let added = raw::add(&mut images[*t], key, *number, *kind, value, *height);
                same("add", (added.refusal, added.node), expected)?;
                Ok(added.refusal)
            }
            Op::Get(t, key, snapshot) => {
                counts.lookups += 1;
                let (refusal, answer, looks) = models[*t].get(key, *snapshot);
                let found = raw::get(&images[*t], key, *snapshot);
                let (answer, node) = as_numbers(answer);
                let expected = raw::Lookup {
                    refusal,
                    answer,
                    node,
                    looks,
                };
                same("get", found, expected)?;
                Ok(refusal)
            }
            Op::Contains(t, key, number, kind) => {
                counts.presences += 1;
                let (refusal, held, looks) = models[*t].contains(key, *number, *kind);
                let held = u32::from(held);
                let found = raw::contains(&images[*t], key, *number, *kind);
                same("contains", found, raw::Presence { refusal, held, looks })?;
                Ok(refusal)
            }
            Op::Value(t, node) => {
                counts.views += 1;
                let refusal = entry_refusal(&models[*t], EntryCursor::on(*node));
                let expected = models[*t]
                    .entry(*node)
                    .filter(|_| refusal == 0)
                    .map_or(&[][..], Entry::shown);
                let view = raw::value(&images[*t], *node);
                same("value", (view.refusal, view.of(&images[*t])), (refusal, expected))?;
                same("value_refusal", raw::value_refusal(&images[*t], *node), refusal)?;
                Ok(refusal)
            }
            Op::Check(t) => {
                counts.checks += 1;
                same("check", raw::check(&images[*t]), !models[*t].bad_header)?;
                Ok(0)
            }
            Op::EntryMove(t, from, how, number) => {
                counts.entry_moves += 1;
                let (image, from) = (&images[*t], from.unwrap_or(self.entry_at[*t]));
                let expected = entry_move(&models[*t], from, how, *number);
                let moved = match how {
                    Move::First => raw::entry_first(image, from),
                    Move::Seek(key) => raw::entry_seek(image, from, key, *number),
                    Move::Next => raw::entry_next(image, from),
                    Move::Prev => raw::entry_prev(image, from),
                };
                same("entry cursor", (moved.refusal, moved.cursor()), expected)?;
                if moved.refusal == 0 {
                    self.entry_at[*t] = moved.cursor();
                }
                self.entry_views(*t, moved.cursor(), counts)?;
                Ok(moved.refusal)
            }
            Op::PairGet(key, snapshot) => {
                counts.pair_lookups += 1;
                let expected = pair_get(models, key, *snapshot);
                same(
                    "pair_get",
                    raw::pair_get(&images[0], &images[1], key, *snapshot),
                    expected,
                )?;
                Ok(expected.refusal)
            }
            Op::RowMove(from, how, snapshot) => {
                counts.moves += 1;
                let ([one, two], from) = (images, from.unwrap_or(self.at));
                let expected = row_move(&models[0], &models[1], *snapshot, from, how);
                let moved = match how {
                    Move::First => raw::first(one, two, *snapshot, from),
                    Move::Seek(key) => raw::seek(one, two, *snapshot, from, key),
                    Move::Next => raw::next(one, two, *snapshot, from),
                    Move::Prev => raw::prev(one, two, *snapshot, from),
                };
                same("visible cursor", (moved.refusal, moved.cursor()), expected)?;
                if moved.refusal == 0 {
                    self.at = moved.cursor();
                }
                self.row_views(moved.cursor(), counts)?;
                Ok(moved.refusal)
            }
            Op::Keep => {
                let [one, two] = &self.images;
                let (key, value) = (raw::row_key(one, two, self.at), raw::row_value(one, two, self.at));
                let shown = (self.at, key.of(one, two).to_vec(), value.of(one, two).to_vec());
                self.kept = (key.refusal == 0).then_some(shown);
                Ok(0)
            }
        }
    }

    fn entry_views(&self, t: usize, at: EntryCursor, counts: &mut Counts) -> Result<(), String> {
        let (image, model) = (&self.images[t], &self.models[t]);
        counts.views += 5;
        let refusal = entry_refusal(model, at);
        let empty = Entry {
            key: Vec::new(),
            number: 0,
            kind: 0,
            value: Vec::new(),
        };
        let entry = model
            .entry(at.node)
            .filter(|_| refusal == 0 && at.on == 1)
            .unwrap_or(&empty);
        let (key, value) = (raw::entry_key(image, at), raw::entry_value(image, at));
        let parts = model.parts(at.node).filter(|_| refusal == 0 && at.on == 1);
        stands(parts, [(key.offset, key.length), (value.offset, value.length)])?;
        same("entry_key", (key.refusal, key.of(image)), (refusal, &entry.key[..]))?;
        same(
            "entry_value",
            (value.refusal, value.of(image)),
            (refusal, entry.shown()),
        )?;
        same("entry_number", raw::entry_number(image, at), entry.number)?;
        same("entry_kind", raw::entry_kind(image, at), entry.kind)?;
        same("entry_refusal", raw::entry_refusal(image, at), refusal)
    }

    fn row_views(&self, at: Cursor, counts: &mut Counts) -> Result<(), String> {
        let ([one, two], [first, second]) = (&self.images, &self.models);
        counts.views += 3;
        let refusal = row_refusal(first, second, at);
        let table = table_of(first, second, at).filter(|_| refusal == 0);
        let entry = table.and_then(|model| model.entry(at.node));
        let (key, value) = (raw::row_key(one, two, at), raw::row_value(one, two, at));
        let (model_key, model_value) = entry.map_or((&[][..], &[][..]), |entry| (&entry.key[..], entry.shown()));
        let parts = table.and_then(|model| model.parts(at.node));
        stands(parts, [(key.offset, key.length), (value.offset, value.length)])?;
        let side = if table.is_some() { at.table } else { 0 };
        same("the image of a row view", (key.table, value.table), (side, side))?;
        same("row_refusal", raw::row_refusal(one, two, at), refusal)?;
        same("row_key", (key.refusal, key.of(one, two)), (refusal, model_key))?;
        same("row_value", (value.refusal, value.of(one, two)), (refusal, model_value))
    }

    // Every byte is the model's, and the cursor that was kept shows what it showed.
    fn bytes_hold(&self) -> Result<(), String> {
        for (image, model) in self.images.iter().zip(&self.models) {
            if image[..] != model.image[..] {
                let at = image.iter().zip(&model.image).position(|(a, b)| a != b);
                return Err(format!("byte {at:?} differs\n{image:02x?}\n{:02x?}", model.image));
            }
        }
        if let Some((at, key, value)) = &self.kept {
            let [one, two] = &self.images;
            same("a kept cursor's key", raw::row_key(one, two, *at).of(one, two), key)?;
            same(
                "a kept cursor's value",
                raw::row_value(one, two, *at).of(one, two),
                value,
            )?;
        }
        Ok(())
    }
}

/// An answer as the library's numbers.
pub fn as_numbers(answer: Answer) -> (u32, usize) {
    match answer {
        Answer::Absent => (0, 0),
        Answer::Found(node) => (1, node),
        Answer::Deleted => (2, 0),
    }
}

/// What the model says to a lookup in a pair.
pub fn pair_get(models: &[Model; 2], key: &[u8], snapshot: u64) -> raw::PairLookup {
    let mut told = raw::PairLookup {
        refusal: u32::from(models.iter().any(|model| model.bad_header)),
        answer: 0,
        table: 0,
        node: 0,
        looks: 0,
    };
    for (index, model) in models.iter().enumerate() {
        if (told.refusal, told.answer) != (0, 0) {
            break;
        }
        let (refusal, answer, looks) = model.get(key, snapshot);
        told.refusal = refusal;
        (told.answer, told.node) = as_numbers(answer);
        told.table = if told.answer == 1 { index as u32 + 1 } else { 0 };
        told.looks += looks;
    }
    told
}

/// Runs a script; the place and the words of the first disagreement.
pub fn run(ops: &[Op], counts: &mut Counts) -> Result<(), (usize, String)> {
    let mut state = State::new();
    for (index, op) in ops.iter().enumerate() {
        let refusal = state.step(op, counts).map_err(|words| (index, words))?;
        counts.refusals[refusal.min(10) as usize] += 1;
        state.bytes_hold().map_err(|words| (index, words))?;
    }
    Ok(())
}

/// Leaves calls out as long as the rest still disagrees.
pub fn shrink(mut ops: Vec<Op>) -> (Vec<Op>, String) {
    let fails = |ops: &[Op]| run(ops, &mut Counts::default()).err();
    let mut words = String::new();
    let mut chunk = ops.len().max(1);
    while chunk > 0 {
        let mut from = 0;
        while from < ops.len() {
            let mut fewer = ops.clone();
            fewer.drain(from..(from + chunk).min(ops.len()));
            match fails(&fewer) {
                Some((_, why)) => (ops, words) = (fewer, why),
                None => from += chunk,
            }
        }
        chunk /= 2;
    }
    if let Some((last, why)) = fails(&ops) {
        ops.truncate(last + 1);
        words = why;
    }
    (ops, words)
}
