//! The calls that a script is made of.

use crate::model::Entry;
use crate::moves::Move;
use bavolinesk::raw::{Cursor, EntryCursor};

#[derive(Clone, Debug)]
pub enum Op {
    Fresh(usize, usize, u8),
    /// Overwrites a field of the header, so that it does not hold.
    Spoil(usize, usize),
    Add(usize, Entry, usize),
    Get(usize, Vec<u8>, u64),
    Contains(usize, Vec<u8>, u64, u8),
    Value(usize, usize),
    Check(usize),
    /// From the cursor that the script carries, or from any other.
    EntryMove(usize, Option<EntryCursor>, Move, u64),
    PairGet(Vec<u8>, u64),
    RowMove(Option<Cursor>, Move, u64),
    /// Keeps the visible cursor aside, to be shown again after every call that follows.
    Keep,
}

/// How many calls of each name were compared, and how many got each refusal.
#[derive(Clone, Debug, Default)]
pub struct Counts {
    pub adds: u64,
    pub lookups: u64,
    pub presences: u64,
    pub pair_lookups: u64,
    pub entry_moves: u64,
    pub moves: u64,
    pub views: u64,
    pub checks: u64,
    pub refusals: [u64; 11],
}
