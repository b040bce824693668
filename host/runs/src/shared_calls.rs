//! A caller on images that a card may write to meanwhile: what it draws, times and writes down.

use crate::board::{Board, Sheet, CALLS, NAMES};
use crate::clocks::{now, processor_time};
use crate::guarded::Guarded;
use crate::rng::Rng;
use crate::shared_world::World;
use bavolinesk::ffi::{Cursor, EntryCursor};
use bavolinesk::MAX_NUMBER;
use std::fmt::Debug;
use std::sync::atomic::Ordering::Relaxed;

/// One caller: a thread or a process.
pub struct Caller<'a> {
    pub(crate) world: &'a World,
    board: &'a Board,
    sheet: &'a Sheet,
    pub(crate) rng: Rng,
    // Keys and values that are handed in, between guard pages too.
    key: Guarded,
    pub(crate) value: Guarded,
    pub(crate) entry_at: [EntryCursor; 2],
    pub(crate) at: Cursor,
}

// A key in guarded memory, and the same bytes to compare.
pub(crate) struct Key {
    pub(crate) at: *const u8,
    pub(crate) bytes: Vec<u8>,
}

impl<'a> Caller<'a> {
    pub fn new(world: &'a World, board: &'a Board, slot: usize, rng: Rng) -> Caller<'a> {
        Caller {
            world,
            board,
            sheet: &board.sheets[slot],
            rng,
            key: Guarded::new(1_025),
            value: Guarded::new(4_097),
            entry_at: [EntryCursor::NOWHERE; 2],
            at: Cursor::NOWHERE,
        }
    }

    /// Makes calls until the board says stop.
    pub fn run(&mut self) {
        while !self.board.stop.load(Relaxed) {
            self.any();
        }
    }

    /// A call that is drawn; a fresh table rarely, since it empties the image.
    pub fn any(&mut self) {
        let drawn = if self.rng.one_in(3_000) {
            0
        } else {
            self.rng.between(1, CALLS - 1)
        };
        let only = self.board.only.load(Relaxed) as usize;
        let which = only.checked_sub(1).unwrap_or(drawn);
        self.call(which);
    }

    /// Goes to the last nodes of the tables, from where the way down is longest.
    pub fn go_to_last(&mut self) {
        let counts = [0, 1].map(|t| self.world.targets[t].count());
        self.entry_at = counts.map(EntryCursor::on);
        self.at = Cursor {
            table: 1,
            node: counts[0],
        };
    }

    pub(crate) fn timed<T>(&mut self, which: usize, call: impl FnOnce() -> T) -> T {
        self.sheet.began.store(now(), Relaxed);
        self.sheet.under_way.store(which as u32 + 1, Relaxed);
        let before = processor_time();
        let answer = call();
        let took = processor_time().saturating_sub(before).as_nanos() as u64;
        self.sheet.under_way.store(0, Relaxed);
        self.sheet.tallies[which].slowest.fetch_max(took, Relaxed);
        answer
    }

    // Writes an answer down; it is off where the condition does not hold.
    pub(crate) fn noted(&self, which: usize, refusal: u32, holds: bool, said: impl Debug) {
        let tally = &self.sheet.tallies[which];
        let count = if refusal == 0 { &tally.given } else { &tally.refused };
        count.fetch_add(1, Relaxed);
        if holds && refusal <= 10 {
            return;
        }
        tally.off.fetch_add(1, Relaxed);
        self.stop_unless_counting(which, "an answer out of its bounds", said);
    }

    // Of a call that may write: whether it kept to its image. Of several callers it may have been another's call.
    pub(crate) fn kept_outside(&self, which: usize, t: usize, said: impl Debug) {
        if let Some(changed) = self.world.changed_outside(t) {
            self.sheet.tallies[which].outside.fetch_add(1, Relaxed);
            self.stop_unless_counting(which, &changed, said);
        }
    }

    fn stop_unless_counting(&self, which: usize, what: &str, said: impl Debug) {
        if !self.board.counting.load(Relaxed) {
            let lengths = self.world.images.map(|image| image.length);
            println!("{}: {what}; images of {lengths:?} bytes, {said:?}", NAMES[which]);
            std::process::exit(1);
        }
    }

    pub(crate) fn draw_key(&mut self) -> Key {
        let bytes = match self.rng.below(40) {
            0 => vec![b's'; *self.rng.pick(&[0, 1, 119, 120, 1_024, 1_025])],
            1 => vec![0xff; self.rng.between(1, 20)],
            _ => self.rng.pick(&self.world.keys).clone(),
        };
        let at = self.key.put(&bytes, self.rng.one_in(2));
        Key { at, bytes }
    }

    pub(crate) fn number(&mut self) -> u64 {
        match self.rng.below(12) {
            0 => *self.rng.pick(&[0, MAX_NUMBER, MAX_NUMBER + 1, u64::MAX]),
            1..=3 => MAX_NUMBER,
            _ => self.rng.below(700) as u64,
        }
    }

    pub(crate) fn node(&mut self, t: usize) -> usize {
        match self.rng.below(16) {
            0 => *self.rng.pick(&[0, 4_096, 4_097, 1 << 32, usize::MAX]),
            1 => self.world.targets[t].count() + 1,
            _ => self.rng.between(1, self.world.targets[t].count().max(1)),
        }
    }

    // Where the last move led, most often, so that calls go on from there as a scan does.
    pub(crate) fn draw_entry_at(&mut self, t: usize) -> EntryCursor {
        let node = self.node(t);
        match self.rng.below(16) {
            0..=7 => self.entry_at[t],
            8 | 9 => EntryCursor::NOWHERE,
            10 => EntryCursor { on: u32::MAX, node },
            11 => EntryCursor { on: 2, node },
            _ => EntryCursor::on(node),
        }
    }

    pub(crate) fn draw_at(&mut self) -> Cursor {
        let t = self.rng.below(2);
        let (table, node) = (t as u32 + 1, self.node(t));
        match self.rng.below(16) {
            0..=7 => self.at,
            8 | 9 => Cursor::NOWHERE,
            10 => Cursor { table: u32::MAX, node },
            11 => Cursor { table: 3, node },
            _ => Cursor { table, node },
        }
    }
}

impl Key {
    // The library was lent the key to read alone.
    pub(crate) fn stands(&self) -> bool {
        Guarded::holds(self.at, &self.bytes)
    }
}
