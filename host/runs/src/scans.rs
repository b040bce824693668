//! Scans of images that may be damaged, to their end: every move leads onward, to a node that can be read whole, and there are no
//! more moves than nodes; else it ends nowhere, or is refused with 9.

use crate::checker::header;
use crate::rng::Rng;
use bavolinesk::raw::{self, Cursor, EntryCursor};
use std::cmp::Ordering;

#[derive(Debug, Default)]
pub struct Counts {
    pub pairs: u64,
    pub unsound_pairs: u64,
    pub bad_headers: u64,
    pub scans: u64,
    pub moves: u64,
    pub ended_nowhere: u64,
    pub ended_refused: u64,
    pub seeks: u64,
    pub most_moves: usize,
    /// Pairs with a scan that went wrong, where they are counted.
    pub wrong: u64,
}

#[derive(Clone, Copy, Debug, PartialEq, Eq)]
enum Way {
    Up,
    Down,
}

impl Way {
    // Whether a place lies strictly onward of the one before, by their order.
    fn leads(self, before_to_here: Ordering) -> bool {
        match self {
            Way::Up => before_to_here == Ordering::Less,
            Way::Down => before_to_here == Ordering::Greater,
        }
    }
}

type Found<'a> = (&'a [u8], u64);

fn order(one: Found, two: Found) -> Ordering {
    one.0.cmp(two.0).then(two.1.cmp(&one.1))
}

/// Scans of two images at a snapshot.
pub struct Scanner<'a> {
    images: [&'a [u8]; 2],
    nodes: [Option<usize>; 2],
    snapshot: u64,
    is_sound: bool,
    counts: &'a mut Counts,
}

impl<'a> Scanner<'a> {
    pub fn new(images: [&'a [u8]; 2], snapshot: u64, counts: &'a mut Counts) -> Scanner<'a> {
        let nodes = images.map(|image| header(image).map(|(count, _)| count));
        let is_sound = images.iter().all(|image| raw::check(image));
        counts.pairs += 1;
        counts.unsound_pairs += u64::from(!is_sound);
        counts.bad_headers += nodes.iter().filter(|nodes| nodes.is_none()).count() as u64;
        Scanner {
            images,
            nodes,
            snapshot,
            is_sound,
            counts,
        }
    }

    /// Every scan of the pair: both cursors, both ways, from nowhere, from the last place that was reached and from drawn ones.
    pub fn all(&mut self, rng: &mut Rng) -> Result<(), String> {
        for t in 0..2 {
            let Some(nodes) = self.nodes[t] else { continue };
            let last = self.entries(t, Way::Up, EntryCursor::NOWHERE)?;
            self.entries(t, Way::Down, last)?;
            for _ in 0..if nodes == 0 { 0 } else { 2 } {
                let way = *rng.pick(&[Way::Up, Way::Down, Way::Down]);
                self.entries(t, way, EntryCursor::on(rng.between(1, nodes)))?;
            }
            self.entry_seek(t, rng)?;
        }
        let [Some(one), Some(two)] = self.nodes else {
            return Ok(());
        };
        let last = self.rows(Way::Up, Cursor::NOWHERE)?;
        self.rows(Way::Down, last)?;
        for (table, nodes) in [(1, one), (2, two)] {
            if nodes > 0 {
                let way = *rng.pick(&[Way::Up, Way::Down]);
                let node = rng.between(1, nodes);
                self.rows(way, Cursor { table, node })?;
            }
        }
        self.seek(rng)
    }

    // Key and number of an entry that can be read whole.
    fn entry(&self, t: usize, at: EntryCursor) -> Option<Found<'a>> {
        let image = self.images[t];
        let (key, value) = (raw::entry_key(image, at), raw::entry_value(image, at));
        let whole = (raw::entry_refusal(image, at), key.refusal, value.refusal) == (0, 0, 0);
        (whole && at.on == 1).then(|| (key.of(image), raw::entry_number(image, at)))
    }

    // A scan is over: nowhere, or by damage, which a sound pair does not have.
    fn ended(&mut self, refusal: u32, moves: usize, kept: bool) -> Result<(), String> {
        self.counts.scans += 1;
        self.counts.moves += moves as u64;
        self.counts.most_moves = self.counts.most_moves.max(moves);
        match refusal {
            0 => self.counts.ended_nowhere += 1,
            9 if !self.is_sound && kept => self.counts.ended_refused += 1,
            9 if !kept => return Err("a refused move does not hand back its cursor".into()),
            _ => return Err(format!("the refusal {refusal}, sound: {}", self.is_sound)),
        }
        Ok(())
    }

    // Moves of the entry cursor until one ends nowhere or is refused; the last node that was reached.
    fn entries(&mut self, t: usize, way: Way, from: EntryCursor) -> Result<EntryCursor, String> {
        let image = self.images[t];
        let most = self.nodes[t].unwrap_or(0);
        let (mut at, mut before) = (from, self.entry(t, from));
        for moves in 0.. {
            let moved = match way {
                Way::Up => raw::entry_next(image, at),
                Way::Down => raw::entry_prev(image, at),
            };
            let wrong = |why: String| format!("entry cursor of table {}, {way:?}, {at:?} to {moved:?}: {why}", t + 1);
            if moved.refusal != 0 || moved.on == 0 {
                let kept = moved.cursor() == at;
                self.ended(moved.refusal, moves, kept).map_err(wrong)?;
                if self.is_sound && way == Way::Up && from.on == 0 && moves != most {
                    return Err(wrong(format!("the end after {moves} of {most} entries")));
                }
                return Ok(at);
            }
            let Some(here) = self.entry(t, moved.cursor()) else {
                return Err(wrong("the node cannot be read whole".into()));
            };
            if before.is_some_and(|before| !way.leads(order(before, here))) {
                return Err(wrong(format!("{here:02x?} is not onward of {before:02x?}")));
            }
            if moves == most {
                return Err(wrong(format!("more moves than the {most} nodes")));
            }
            (at, before) = (moved.cursor(), Some(here));
        }
        Ok(at)
    }

    // Key of a row: its node can be read whole and is a value that is numbered up to the snapshot.
    fn row(&self, at: Cursor) -> Result<&'a [u8], String> {
        let [one, two] = self.images;
        let (key, value) = (raw::row_key(one, two, at), raw::row_value(one, two, at));
        let refusals = (raw::row_refusal(one, two, at), key.refusal, value.refusal);
        let t = usize::from(at.table == 2);
        let entry_at = EntryCursor::on(at.node);
        let (number, kind) = (
            raw::entry_number(self.images[t], entry_at),
            raw::entry_kind(self.images[t], entry_at),
        );
        if refusals != (0, 0, 0) || self.entry(t, entry_at).is_none() {
            return Err("the node cannot be read whole".into());
        }
        if kind != 1 || number > self.snapshot {
            return Err(format!("type {kind}, number {number}: no row"));
        }
        Ok(key.of(one, two))
    }

    // Moves of the visible cursor until one ends nowhere or is refused; the last place that was reached.
    fn rows(&mut self, way: Way, from: Cursor) -> Result<Cursor, String> {
        let ([one, two], snapshot) = (self.images, self.snapshot);
        let most: usize = self.nodes.iter().flatten().sum();
        let start = match from.table {
            1 | 2 => self.entry(from.table as usize - 1, EntryCursor::on(from.node)),
            _ => None,
        };
        let (mut at, mut before) = (from, start.map(|(key, _)| key));
        for moves in 0.. {
            let moved = match way {
                Way::Up => raw::next(one, two, snapshot, at),
                Way::Down => raw::prev(one, two, snapshot, at),
            };
            let wrong = |why: String| format!("visible cursor at {snapshot}, {way:?}, {at:?} to {moved:?}: {why}");
            if moved.refusal != 0 || moved.table == 0 {
                let kept = moved.cursor() == at;
                self.ended(moved.refusal, moves, kept).map_err(wrong)?;
                return Ok(at);
            }
            let here = self.row(moved.cursor()).map_err(wrong)?;
            if before.is_some_and(|before| !way.leads(before.cmp(here))) {
                return Err(wrong(format!("{here:02x?} is not onward of {before:02x?}")));
            }
            if moves == most {
                return Err(wrong(format!("more moves than the {most} nodes of both tables")));
            }
            (at, before) = (moved.cursor(), Some(here));
        }
        Ok(at)
    }

    // A key to seek: of a node, or short and drawn.
    fn sought(&self, t: usize, rng: &mut Rng) -> Vec<u8> {
        let nodes = self.nodes[t].unwrap_or(0);
        let entry = self.entry(t, EntryCursor::on(rng.between(1, nodes.max(1))));
        let drawn = vec![b'a' + rng.below(26) as u8];
        entry.map_or(drawn, |(key, _)| key.to_vec())
    }

    fn entry_seek(&mut self, t: usize, rng: &mut Rng) -> Result<(), String> {
        let (key, number) = (self.sought(t, rng), self.snapshot);
        let moved = raw::entry_seek(self.images[t], EntryCursor::NOWHERE, &key, number);
        self.counts.seeks += 1;
        if moved.refusal != 0 || moved.on == 0 {
            return Ok(());
        }
        let onward = self
            .entry(t, moved.cursor())
            .is_some_and(|here| order((&key, number), here).is_le());
        let wrong = || format!("entry_seek of table {} to {key:02x?} @{number}: {moved:?}", t + 1);
        onward.then_some(()).ok_or_else(wrong)
    }

    fn seek(&mut self, rng: &mut Rng) -> Result<(), String> {
        let key = self.sought(rng.below(2), rng);
        let [one, two] = self.images;
        let moved = raw::seek(one, two, self.snapshot, Cursor::NOWHERE, &key);
        self.counts.seeks += 1;
        if moved.refusal != 0 || moved.table == 0 {
            return Ok(());
        }
        let wrong = |why: String| format!("seek to {key:02x?} at {}: {moved:?}: {why}", self.snapshot);
        match self.row(moved.cursor()).map_err(wrong)? {
            here if here >= &key[..] => Ok(()),
            here => Err(wrong(format!("{here:02x?} is below"))),
        }
    }
}
