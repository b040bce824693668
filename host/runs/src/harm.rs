//! Ways to damage an image.

use crate::checker::{header, word};
use crate::rng::Rng;

fn put(image: &mut [u8], at: usize, value: usize) {
    if let Some(place) = at.checked_add(4).and_then(|end| image.get_mut(at..end)) {
        place.copy_from_slice(&(value as u32).to_le_bytes());
    }
}

// Where a node's words stand, as its slot says.
fn start(image: &[u8], count: usize, rng: &mut Rng) -> usize {
    let number = rng.between(1, count.max(1));
    let slot = image.len().checked_sub(4 * number);
    slot.and_then(|at| word(image, at)).unwrap_or(64)
}

// A number that a link, a slot or a length might be overwritten with.
fn stray(image: &[u8], count: usize, free: usize, rng: &mut Rng) -> usize {
    match rng.below(12) {
        0 => 0,
        1..=4 => rng.between(1, count.max(1)),
        5 => count + 1,
        6 => rng.word() as usize,
        7 => u32::MAX as usize,
        8 => free,
        9 => rng.below(image.len() + 8),
        10 => rng.below(16),
        _ => start(image, count, rng),
    }
}

fn flips(image: &mut [u8], free: usize, rng: &mut Rng) {
    for _ in 0..rng.between(1, 6) {
        let within = if rng.one_in(3) {
            image.len()
        } else {
            free.min(image.len())
        };
        if within > 0 {
            image[rng.below(within)] ^= 1 << rng.below(8);
        }
    }
}

// A link of a node or of the head: to itself, back, across levels, above the count.
fn links(image: &mut [u8], count: usize, free: usize, rng: &mut Rng) {
    for _ in 0..rng.between(1, 4) {
        let number = rng.below(count + 1);
        let at = match number {
            0 => 16,
            _ => image
                .len()
                .checked_sub(4 * number)
                .and_then(|at| word(image, at))
                .map_or(16, |at| at + 8),
        };
        let height = match number {
            0 => 12,
            _ => word(image, at - 8).unwrap_or(1).clamp(1, 12),
        };
        let to = if rng.one_in(3) {
            number
        } else {
            stray(image, count, free, rng)
        };
        put(image, at + 4 * rng.below(height), to);
    }
}

// All links of a level, or of a node at all levels, to one place.
fn loops(image: &mut [u8], count: usize, rng: &mut Rng) {
    let to = rng.between(1, count.max(1));
    for _ in 0..rng.between(1, 3) {
        let at = start(image, count, rng);
        let height = word(image, at).unwrap_or(1).min(12);
        for level in 0..height {
            put(image, at + 8 + 4 * level, to);
        }
    }
}

// A detour: a node's link at a level leads to another node, and that one's at the same level to the end. A search may then meet
// nodes again at a lower level and still come to an end, after more looks than are allowed.
fn detour(image: &mut [u8], count: usize, rng: &mut Rng) {
    let tall = |image: &[u8], level: usize, rng: &mut Rng| {
        let starts = (0..8).map(|_| start(image, count, rng));
        starts
            .filter(|&at| word(image, at).is_some_and(|height| height > level))
            .max()
    };
    let level = rng.below(3);
    let number = rng.between(1, count.max(1));
    let target = image.len().checked_sub(4 * number).and_then(|at| word(image, at));
    if let (Some(from), Some(to)) = (tall(image, level, rng), target) {
        put(image, to + 8 + 4 * level, 0);
        put(image, from + 8 + 4 * level, number);
    }
}

// A link to a node that is not tall enough for the link's level; the bytes behind its own links read as a link that is in range.
fn too_low(image: &mut [u8], count: usize, rng: &mut Rng) {
    let number = rng.between(1, count.max(1));
    let Some(at) = image.len().checked_sub(4 * number).and_then(|at| word(image, at)) else {
        return;
    };
    let level = word(image, at).unwrap_or(1).min(11);
    put(image, at + 8 + 4 * level, rng.between(8, 12));
    let others = (0..8).map(|_| start(image, count, rng));
    let from = others
        .filter(|&at| word(image, at).is_some_and(|height| height > level))
        .max();
    put(image, from.map_or(16, |at| at + 8) + 4 * level, number);
}

fn header_fields(image: &mut [u8], count: usize, free: usize, rng: &mut Rng) {
    match rng.below(10) {
        0 => put(image, 4, count + 1),
        1 => put(image, 4, count.saturating_sub(1)),
        2 => put(image, 4, *rng.pick(&[4_095, 4_096, 4_097])),
        3 => put(image, 8, free + rng.between(1, 30)),
        4 => put(image, 8, free.saturating_sub(rng.between(1, 30))),
        5 => put(image, 8, rng.below(image.len() + 8)),
        6 => put(image, 0, rng.below(70_000)),
        7 => put(image, 12, rng.below(16)),
        8 => put(image, 4, rng.below(image.len() / 4 + 2)),
        _ => put(image, 8, image.len().saturating_sub(4 * count)),
    }
}

// Cut off, or laid into a longer slice; the header's length is mended two times out of three.
fn relength(image: &mut Box<[u8]>, rng: &mut Rng) {
    let mut bytes = image.to_vec();
    let length = if rng.one_in(3) {
        rng.below(bytes.len() + 1)
    } else {
        bytes.len() + rng.below(9)
    };
    bytes.resize(length, 0xa5);
    *image = bytes.into_boxed_slice();
    if !rng.one_in(3) {
        put(image, 0, image.len());
    }
}

/// Damages an image in one of many ways.
pub fn harm(image: &mut Box<[u8]>, rng: &mut Rng) {
    let (count, free) = header(image).unwrap_or((3, 200));
    match rng.below(17) {
        0 | 1 => flips(image, free, rng),
        2..=5 => links(image, count, free, rng),
        6 | 16 if rng.one_in(3) => loops(image, count, rng),
        6 | 16 if rng.one_in(2) => detour(image, count, rng),
        6 | 16 => too_low(image, count, rng),
        7 | 8 => {
            let number = rng.between(1, count.max(1));
            let to = stray(image, count, free, rng);
            put(image, image.len().saturating_sub(4 * number), to);
        }
        // A node's height or the length of its entry.
        9 | 10 => {
            let at = start(image, count, rng) + 4 * rng.below(2);
            let to = if rng.one_in(2) {
                word(image, at).unwrap_or(0) + rng.below(3)
            } else {
                stray(image, count, free, rng)
            };
            put(image, at, to);
        }
        11 => header_fields(image, count, free, rng),
        // The first bytes of an entry: its key's length.
        12 => {
            let at = start(image, count, rng);
            let at = at + 8 + 4 * word(image, at).unwrap_or(1).min(12);
            let bytes = *rng.pick(&[
                [0x80, 0x00],
                [0x88, 0x00],
                [0xff, 0xff],
                [0x07, 0x00],
                [0x89, 0x08],
                [0x88, 0x08],
            ]);
            if let Some(place) = image.get_mut(at..at + 2) {
                place.copy_from_slice(&bytes);
            }
        }
        13 => {
            let from = rng.below(image.len() + 1);
            let end = (from + rng.below(64)).min(image.len());
            let noise = rng.bytes(end - from);
            image[from..end].copy_from_slice(&noise);
        }
        14 => relength(image, rng),
        // Any bytes behind a header that holds.
        _ => {
            let noise = rng.bytes(image.len());
            image.copy_from_slice(&noise);
            if image.len() >= 64 {
                let count = rng.below(image.len() / 8);
                put(image, 0, image.len());
                put(image, 4, count);
                put(image, 8, rng.between(64, (image.len() - 4 * count).max(64)));
                put(image, 12, 12);
                for level in 0..12 {
                    put(image, 16 + 4 * level, rng.below(count + 2));
                }
            }
        }
    }
}
