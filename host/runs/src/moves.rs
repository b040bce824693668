//! The moves of both cursors by document 01's rule, over models.

use crate::model::{Model, MAX_NUMBER, VALUE};
use bavolinesk::raw::{Cursor, EntryCursor};
use std::collections::BTreeMap;

/// A move of the visible cursor, or with a number of the entry cursor.
#[derive(Clone, Debug, PartialEq, Eq)]
pub enum Move {
    First,
    Seek(Vec<u8>),
    Next,
    Prev,
}

impl Move {
    pub fn key(&self) -> &[u8] {
        match self {
            Move::Seek(key) => key,
            _ => &[],
        }
    }
}

fn entry_cursor(node: usize) -> EntryCursor {
    if node == 0 {
        return EntryCursor::NOWHERE;
    }
    EntryCursor::on(node)
}

/// The refusal of an entry cursor: 1, 10 or none.
pub fn entry_refusal(model: &Model, at: EntryCursor) -> u32 {
    if model.bad_header {
        return 1;
    }
    let named = at.on == 0 || (at.on == 1 && model.entry(at.node).is_some());
    10 * u32::from(!named)
}

/// A move of the entry cursor; `number` counts for a seek alone.
pub fn entry_move(model: &Model, at: EntryCursor, how: &Move, number: u64) -> (u32, EntryCursor) {
    let refusal = match entry_refusal(model, at) {
        0 if !matches!(how, Move::Seek(_)) => 0,
        0 if number > MAX_NUMBER => 3,
        0 if how.key().len() > 1_024 => 4,
        other => other,
    };
    if refusal != 0 {
        return (refusal, at);
    }
    let here = model.entry(at.node).filter(|_| at.on == 1);
    let place = here.map(|entry| model.lower(&entry.key, entry.number));
    let to = match (how, place) {
        (Move::First, _) | (Move::Next, None) => model.node_at(0),
        (Move::Seek(key), _) => model.node_at(model.lower(key, number)),
        (Move::Next, Some(place)) => model.node_at(place + 1),
        (Move::Prev, None) | (Move::Prev, Some(0)) => 0,
        (Move::Prev, Some(place)) => model.node_at(place - 1),
    };
    (0, entry_cursor(to))
}

/// The rows at a snapshot: for each key that has one, the place of the entry that gives it.
pub fn rows<'m>(first: &'m Model, second: &'m Model, snapshot: u64) -> BTreeMap<&'m [u8], Cursor> {
    let mut newest: BTreeMap<&[u8], (u64, u8, Cursor)> = BTreeMap::new();
    for (table, model) in [(1, first), (2, second)] {
        for (index, node) in model.nodes.iter().enumerate() {
            let entry = &node.entry;
            if entry.number > snapshot {
                continue;
            }
            let held = newest.get(entry.key.as_slice());
            if held.is_none_or(|&(number, _, _)| number < entry.number) {
                let at = Cursor { table, node: index + 1 };
                newest.insert(&entry.key, (entry.number, entry.kind, at));
            }
        }
    }
    let values = newest.into_iter().filter(|(_, (_, kind, _))| *kind == VALUE);
    values.map(|(key, (_, _, at))| (key, at)).collect()
}

/// The model of a cursor's table; none for a cursor that names neither.
pub fn table_of<'m>(first: &'m Model, second: &'m Model, at: Cursor) -> Option<&'m Model> {
    match at.table {
        1 => Some(first),
        2 => Some(second),
        _ => None,
    }
}

/// The refusal of a visible cursor: 1, 10 or none.
pub fn row_refusal(first: &Model, second: &Model, at: Cursor) -> u32 {
    if first.bad_header || second.bad_header {
        return 1;
    }
    let named = table_of(first, second, at).and_then(|model| model.entry(at.node));
    10 * u32::from(at.table != 0 && named.is_none())
}

/// A move of the visible cursor.
pub fn row_move(first: &Model, second: &Model, snapshot: u64, at: Cursor, how: &Move) -> (u32, Cursor) {
    let refusal = match row_refusal(first, second, at) {
        0 if snapshot > MAX_NUMBER => 3,
        0 if how.key().len() > 1_024 => 4,
        other => other,
    };
    if refusal != 0 {
        return (refusal, at);
    }
    let rows = rows(first, second, snapshot);
    let here = table_of(first, second, at).and_then(|model| model.entry(at.node));
    let here = here.map(|entry| entry.key.as_slice());
    let to = match (how, here) {
        (Move::First, _) | (Move::Next, None) => rows.values().next(),
        (Move::Seek(key), _) => rows.range(key.as_slice()..).next().map(|(_, at)| at),
        (Move::Next, Some(here)) => rows.range(here..).find(|(key, _)| **key != here).map(|(_, at)| at),
        (Move::Prev, None) => None,
        (Move::Prev, Some(here)) => rows.range(..here).next_back().map(|(_, at)| at),
    };
    (0, to.copied().unwrap_or(Cursor::NOWHERE))
}
