//! The card: it writes into the images while others call. What it writes is links, slots, heights, lengths, tags, words of the
//! header and noise; and the sound bytes again, so that calls come far. All of it goes through raw pointers, volatile: what a reader
//! sees of it, and when, is left open, which is the point.

use crate::checker::word;
use crate::rng::Rng;

/// One image that is written to: where it is, what a sound table would have there, and where that table's nodes begin.
pub struct Target {
    at: usize,
    sound: Vec<u8>,
    nodes: Vec<usize>,
}

// A place in an image, how many bytes of it are written, and what.
struct Scratch {
    at: usize,
    bytes: [u8; 4],
    length: usize,
}

fn a_word(at: usize, value: usize) -> Scratch {
    let (bytes, length) = ((value as u32).to_le_bytes(), 4);
    Scratch { at, bytes, length }
}

fn a_byte(at: usize, value: u8) -> Scratch {
    let (bytes, length) = ([value, 0, 0, 0], 1);
    Scratch { at, bytes, length }
}

impl Target {
    pub fn new(at: *mut u8, sound: Vec<u8>) -> Target {
        let count = word(&sound, 4).unwrap_or(0);
        let slots = (1..=count).filter_map(|node| word(&sound, sound.len().checked_sub(4 * node)?));
        let nodes = slots.filter(|&at| at + 12 < sound.len()).collect();
        let at = at as usize;
        Target { at, sound, nodes }
    }

    /// How many nodes the sound table has.
    pub fn count(&self) -> usize {
        self.nodes.len()
    }

    fn write(&self, at: usize, bytes: &[u8]) {
        for (index, &byte) in bytes.iter().enumerate().take(self.sound.len().saturating_sub(at)) {
            // SAFETY: inside the image, which stays mapped while the card runs.
            unsafe { ((self.at + at + index) as *mut u8).write_volatile(byte) };
        }
    }

    // A word goes in one piece where it can.
    fn scratch(&self, scratch: &Scratch) {
        let place = self.at + scratch.at;
        if scratch.length == 4 && place.is_multiple_of(4) && scratch.at + 4 <= self.sound.len() {
            // SAFETY: inside the image and aligned.
            unsafe { (place as *mut u32).write_volatile(u32::from_ne_bytes(scratch.bytes)) };
        } else {
            self.write(scratch.at, &scratch.bytes[..scratch.length]);
        }
    }

    /// Writes the sound bytes of a stretch, eight at a time where they are aligned.
    pub fn mend(&self, from: usize, end: usize) {
        let mut at = from;
        while at < end {
            let whole = (self.at + at).is_multiple_of(8) && at + 8 <= end;
            let eight = self.sound.get(at..at + 8).filter(|_| whole);
            if let Some(bytes) = eight.and_then(|bytes| bytes.try_into().ok()) {
                // SAFETY: inside the image, as the sound bytes are as long, and aligned.
                unsafe { ((self.at + at) as *mut u64).write_volatile(u64::from_ne_bytes(bytes)) };
                at += 8;
            } else {
                self.write(at, &self.sound[at..at + 1]);
                at += 1;
            }
        }
    }

    pub fn mend_all(&self) {
        self.mend(0, self.sound.len());
    }

    // A number that does harm as a link, a slot or a length.
    fn stray(&self, rng: &mut Rng) -> usize {
        match rng.below(10) {
            0 => 0,
            1..=3 => rng.between(1, self.nodes.len().max(1)),
            4 => self.nodes.len() + 1,
            5 => rng.word() as usize,
            6 => *rng.pick(&[u32::MAX as usize, 1 << 31, 4_096, 65_535, 65_536]),
            7 => rng.below(self.sound.len() + 8),
            8 => rng.below(16),
            _ => *rng.pick(if self.nodes.is_empty() { &[64] } else { &self.nodes }),
        }
    }

    // A part of a node: its lead, a link, the length of its key or value, its tag.
    fn of_node(&self, rng: &mut Rng) -> Scratch {
        let at = *rng.pick(if self.nodes.is_empty() { &[64] } else { &self.nodes });
        let height = word(&self.sound, at).unwrap_or(1).clamp(1, 12);
        let entry = at + 8 + 4 * height;
        let key = usize::from(self.sound.get(entry).copied().unwrap_or(8)).saturating_sub(8);
        let length = *rng.pick(&[0, 7, 8, 9, 0x7f, 0x80, 0x88, 0xff]);
        match rng.below(8) {
            0..=2 => a_word(at + 8 + 4 * rng.below(height), self.stray(rng)),
            3 => a_word(at, *rng.pick(&[0, 1, 2, 12, 13, 255, u32::MAX as usize])),
            4 => a_word(at + 4, self.stray(rng)),
            5 => a_byte(entry, length),
            6 => a_byte(entry + 1 + key + rng.below(8), rng.word() as u8),
            _ => a_byte(entry + 1 + key + 8, length),
        }
    }

    fn harm(&self, rng: &mut Rng) -> Scratch {
        let scratch = match rng.below(10) {
            0 | 1 => {
                let node = rng.between(1, self.nodes.len().max(1));
                a_word(self.sound.len().saturating_sub(4 * node), self.stray(rng))
            }
            2 => a_word(4 * rng.below(4), self.stray(rng)),
            3 => a_word(16 + 4 * rng.below(12), self.stray(rng)),
            4 => a_byte(rng.below(self.sound.len()), rng.word() as u8),
            _ => self.of_node(rng),
        };
        let at = scratch.at.min(self.sound.len() - scratch.length);
        Scratch { at, ..scratch }
    }

    // The same place harmed and mended over and over, so that one call reads it both ways.
    fn flicker(&self, rng: &mut Rng) {
        let scratch = self.harm(rng);
        let pause = rng.below(60);
        for _ in 0..rng.between(10, 400) {
            self.scratch(&scratch);
            (0..pause).for_each(|_| std::hint::spin_loop());
            self.mend(scratch.at, scratch.at + scratch.length);
            (0..pause).for_each(|_| std::hint::spin_loop());
        }
    }

    /// One thing that a card does.
    pub fn step(&self, rng: &mut Rng) {
        let length = self.sound.len();
        match rng.below(12) {
            0..=5 => self.flicker(rng),
            6 | 7 => self.scratch(&self.harm(rng)),
            8 => {
                let from = rng.below(length);
                self.mend(from, (from + rng.below(4_096)).min(length));
            }
            _ => self.mend_all(),
        }
    }
}

#[cfg(test)]
mod tests {
    use crate::rng::Rng;
    use crate::shared_world::{World, ROUNDS};

    #[test]
    fn a_card_alone_keeps_to_the_images() {
        for (seed, kinds) in (0..).zip(ROUNDS) {
            let mut rng = Rng::new(seed);
            let world = World::new(kinds, &mut rng);
            for _ in 0..3_000 {
                world.targets[rng.below(2)].step(&mut rng);
            }
            let changed = [0, 1].map(|t| world.changed_outside(t));
            assert_eq!(changed, [None, None], "{kinds:?}");
        }
    }
}
