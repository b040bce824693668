//! Small pairs of tables, damaged in few places, by the thousand.

use crate::checker::word;
use crate::rng::Rng;
use bavolinesk::raw;
use std::fmt;

/// What was written where in which image.
#[derive(Clone, Copy)]
pub struct Patch {
    table: usize,
    at: usize,
    bytes: [u8; 4],
    length: usize,
}

impl fmt::Debug for Patch {
    fn fmt(&self, f: &mut fmt::Formatter<'_>) -> fmt::Result {
        let bytes = &self.bytes[..self.length];
        write!(f, "table {} at {}: {bytes:02x?}", self.table + 1, self.at)
    }
}

/// A sound pair, its damaged copy, and the damage.
pub struct Pair {
    sound: [Vec<u8>; 2],
    starts: [Vec<usize>; 2],
    pub bytes: [Vec<u8>; 2],
    pub patches: Vec<Patch>,
}

fn table(rng: &mut Rng) -> Vec<u8> {
    let mut image = vec![0u8; rng.between(480, 560)];
    assert_eq!(raw::fresh(&mut image), 0);
    let (keys, low) = (rng.between(2, 8), rng.one_in(3));
    for _ in 0..rng.between(3, 12) {
        let key = vec![b'a' + rng.below(keys) as u8; rng.between(1, 2)];
        let value = [b'x'; 3];
        let height = if low { 1 } else { rng.tower().max(rng.tower()) };
        let (number, kind) = (rng.below(6) as u64, u8::from(!rng.one_in(4)));
        raw::add(&mut image, &key, number, kind, &value[..rng.below(4)], height);
    }
    image
}

fn starts(image: &[u8]) -> Vec<usize> {
    let count = word(image, 4).unwrap_or(0);
    (1..=count)
        .filter_map(|node| word(image, image.len() - 4 * node))
        .collect()
}

impl Pair {
    pub fn draw(rng: &mut Rng) -> Pair {
        let sound = [table(rng), table(rng)];
        Pair {
            starts: [starts(&sound[0]), starts(&sound[1])],
            bytes: sound.clone(),
            sound,
            patches: Vec::new(),
        }
    }

    fn put(&mut self, table: usize, at: usize, new: &[u8]) {
        let image = &mut self.bytes[table];
        let at = at.min(image.len() - new.len());
        image[at..at + new.len()].copy_from_slice(new);
        let mut bytes = [0; 4];
        bytes[..new.len()].copy_from_slice(new);
        let length = new.len();
        self.patches.push(Patch {
            table,
            at,
            bytes,
            length,
        });
    }

    /// Mends the copy and damages it anew: in one place most often, in several once in three times.
    pub fn damage(&mut self, rng: &mut Rng) {
        for (bytes, sound) in self.bytes.iter_mut().zip(&self.sound) {
            bytes.copy_from_slice(sound);
        }
        self.patches.clear();
        let times = if rng.one_in(3) { rng.between(2, 5) } else { 1 };
        for _ in 0..times {
            let table = rng.below(2);
            self.damage_once(table, rng);
        }
    }

    fn damage_once(&mut self, t: usize, rng: &mut Rng) {
        let (count, length) = (self.starts[t].len(), self.bytes[t].len());
        let used = word(&self.sound[t], 8).unwrap_or(64);
        match rng.below(14) {
            0..=2 => {
                let at = rng.below(used);
                let flipped = self.bytes[t][at] ^ 1 << rng.below(8);
                self.put(t, at, &[flipped]);
            }
            3 => {
                let (level, to) = (rng.below(12), rng.below(count + 2) as u32);
                self.put(t, 16 + 4 * level, &to.to_le_bytes());
            }
            4 => {
                let other = self.starts[t].get(rng.below(count)).copied().unwrap_or(64);
                let anywhere = rng.below(length);
                let to = *rng.pick(&[other, 64, used, anywhere]) as u32;
                self.put(t, length - 4 * rng.between(1, count.max(1)), &to.to_le_bytes());
            }
            5 => {
                let noise = rng.word() as u8;
                self.put(t, rng.below(length), &[noise]);
            }
            _ => self.damage_node(t, rng),
        }
    }

    fn damage_node(&mut self, t: usize, rng: &mut Rng) {
        let count = self.starts[t].len();
        let node = rng.between(1, count.max(1));
        let at = self.starts[t].get(node - 1).copied().unwrap_or(64);
        let height = word(&self.sound[t], at).unwrap_or(1).clamp(1, 12);
        let entry = at + 8 + 4 * height;
        let key = self.sound[t]
            .get(entry)
            .map_or(0, |&byte| usize::from(byte).saturating_sub(8));
        let level = if rng.one_in(2) { 0 } else { rng.below(height) };
        let small = rng.below(6) as u8;
        match rng.below(8) {
            // The type, and the length of the value.
            0 => self.put(t, entry + 1 + key, &[small]),
            1 => self.put(t, entry + 1 + key + 8, &[small]),
            // A link to itself, and to any node.
            2 => self.put(t, at + 8 + 4 * level, &(node as u32).to_le_bytes()),
            3 | 4 => {
                let to = rng.below(count + 2) as u32;
                self.put(t, at + 8 + 4 * level, &to.to_le_bytes());
            }
            // The height, and the length of the key.
            5 => self.put(t, at, &(rng.below(14) as u32).to_le_bytes()),
            6 => self.put(t, entry, &[*rng.pick(&[8, 9, 10, 11, 7, 0x80])]),
            // Another key, number or type: the order breaks.
            _ => {
                let byte = rng.word() as u8;
                self.put(t, entry + 1 + rng.below(key + 8), &[byte]);
            }
        }
    }
}
