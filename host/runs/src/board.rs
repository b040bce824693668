//! What callers write down of their calls, in memory that other threads, processes and a handler of signals can read.

use crate::guarded::Guarded;
use std::sync::atomic::{AtomicBool, AtomicU32, AtomicU64, Ordering::Relaxed};

/// The calls of the interface.
pub const NAMES: [&str; 25] = [
    "bavo_fresh",
    "bavo_add",
    "bavo_check",
    "bavo_contains",
    "bavo_get",
    "bavo_value",
    "bavo_value_refusal",
    "bavo_entry_first",
    "bavo_entry_seek",
    "bavo_entry_next",
    "bavo_entry_prev",
    "bavo_entry_key",
    "bavo_entry_value",
    "bavo_entry_number",
    "bavo_entry_kind",
    "bavo_entry_refusal",
    "bavo_pair_get",
    "bavo_first",
    "bavo_seek",
    "bavo_next",
    "bavo_prev",
    "bavo_row_key",
    "bavo_row_value",
    "bavo_row_refusal",
    "bavo_get_value",
];
pub const CALLS: usize = NAMES.len();
pub const MOST_CALLERS: usize = 16;

/// One call's tally.
#[derive(Default)]
pub struct Tally {
    pub given: AtomicU64,
    pub refused: AtomicU64,
    pub traps: AtomicU64,
    /// Answers that are out of their bounds.
    pub off: AtomicU64,
    /// Calls after which a byte outside their image was another.
    pub outside: AtomicU64,
    /// The longest call's processor time, in nanoseconds.
    pub slowest: AtomicU64,
}

impl Tally {
    pub fn made(&self) -> u64 {
        self.given.load(Relaxed) + self.refused.load(Relaxed)
    }
}

/// One caller's part of the board.
#[derive(Default)]
pub struct Sheet {
    /// The call that is under way, one more than its place in the names; 0 between calls.
    pub under_way: AtomicU32,
    /// When it began, in nanoseconds of the monotonic clock.
    pub began: AtomicU64,
    pub tallies: [Tally; CALLS],
}

/// All zero bytes are an empty board.
#[derive(Default)]
pub struct Board {
    pub stop: AtomicBool,
    /// Traps are counted instead of ending the run.
    pub counting: AtomicBool,
    /// The one call that is made, one more than its place in the names; 0 for all.
    pub only: AtomicU32,
    pub sheets: [Sheet; MOST_CALLERS],
}

impl Board {
    /// A board that stays until the process ends.
    pub fn shared() -> &'static Board {
        let memory = Guarded::new(std::mem::size_of::<Board>());
        let board = memory.start() as *const Board;
        std::mem::forget(memory);
        // SAFETY: large enough, aligned to a page, never unmapped; zero bytes are a legal board, and it is all atomics.
        unsafe { &*board }
    }

    /// What all callers together say of a call.
    pub fn sum(&self, which: usize, field: impl Fn(&Tally) -> u64) -> u64 {
        self.sheets.iter().map(|sheet| field(&sheet.tallies[which])).sum()
    }

    pub fn slowest(&self, which: usize) -> u64 {
        let each = self
            .sheets
            .iter()
            .map(|sheet| sheet.tallies[which].slowest.load(Relaxed));
        each.max().unwrap_or(0)
    }

    /// Takes the longest times down and begins anew.
    pub fn take_slowest(&self) -> [u64; CALLS] {
        let slowest = std::array::from_fn(|which| self.slowest(which));
        for tally in self.sheets.iter().flat_map(|sheet| &sheet.tallies) {
            for count in [&tally.given, &tally.refused, &tally.slowest] {
                count.store(0, Relaxed);
            }
        }
        slowest
    }

    /// A caller whose call has been under way for longer than so many nanoseconds, and the call.
    pub fn hanging(&self, now: u64, longest: u64) -> Option<(usize, usize)> {
        self.sheets.iter().enumerate().find_map(|(slot, sheet)| {
            let which = sheet.under_way.load(Relaxed) as usize;
            let late = now.saturating_sub(sheet.began.load(Relaxed)) > longest;
            (which != 0 && late).then(|| (slot, which - 1))
        })
    }
}

#[cfg(test)]
mod tests {
    use super::{Board, Relaxed};

    #[test]
    fn a_call_that_does_not_return_is_found() {
        let board = Board::shared();
        assert_eq!(board.hanging(100, 20), None);
        board.sheets[1].began.store(50, Relaxed);
        board.sheets[1].under_way.store(20, Relaxed);
        assert_eq!(board.hanging(60, 20), None);
        assert_eq!(board.hanging(100, 20), Some((1, 19)));
    }
}
