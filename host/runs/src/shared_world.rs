//! Two images in guarded memory that a card may write to.

use crate::card::Target;
use crate::guarded::Guarded;
use crate::rng::Rng;
use bavolinesk::raw;

/// A part of memory that is lent to calls: never a slice, since others write to it.
#[derive(Clone, Copy, Debug)]
pub struct Lent {
    at: usize,
    pub length: usize,
}

impl Lent {
    pub fn at(self) -> *mut u8 {
        self.at as *mut u8
    }
}

/// What a round's images are like.
#[derive(Clone, Copy, Debug)]
pub enum Kind {
    /// 65,536 bytes, towers of drawn heights.
    Large,
    /// 65,536 bytes, every tower of height 1, so that every search is long.
    Low,
    /// 65,536 bytes, every tower of height 1, deletions only, so that every move is long.
    Deserted,
    /// Few bytes, right behind the guard page before them or right before the one behind.
    Small { at_end: bool },
}

pub const ROUNDS: [[Kind; 2]; 6] = [
    [Kind::Large, Kind::Large],
    [Kind::Small { at_end: false }, Kind::Small { at_end: true }],
    [Kind::Large, Kind::Small { at_end: true }],
    [Kind::Low, Kind::Large],
    [Kind::Small { at_end: true }, Kind::Small { at_end: false }],
    [Kind::Small { at_end: false }, Kind::Low],
];

fn key(rng: &mut Rng) -> Vec<u8> {
    let mut key = format!("slot {:03x}", rng.below(1_500)).into_bytes();
    match rng.below(40) {
        0 => key.truncate(rng.below(8)),
        1 => key.resize(rng.between(8, 118), b'/'),
        _ => {}
    }
    key
}

impl Kind {
    fn length(self, rng: &mut Rng) -> usize {
        match self {
            Kind::Small { .. } => rng.between(64, 1_000),
            _ => 65_536,
        }
    }

    // A sound image, the larger ones with some room left.
    pub fn sound(self, rng: &mut Rng) -> Vec<u8> {
        let mut image = vec![0u8; self.length(rng)];
        assert_eq!(raw::fresh(&mut image), 0);
        let additions = match self {
            Kind::Large | Kind::Low | Kind::Deserted => 1_300,
            Kind::Small { .. } => 12,
        };
        for number in 0..additions {
            let height = if let Kind::Large | Kind::Small { .. } = self {
                rng.tower()
            } else {
                1
            };
            if let Kind::Deserted = self {
                raw::add(&mut image, &(number as u16).to_be_bytes(), 1, 0, b"", 1);
                continue;
            }
            let kind = u8::from(!rng.one_in(4));
            let value = vec![b'v'; rng.below(12)];
            raw::add(&mut image, &key(rng), number / 2, kind, &value, height);
        }
        image
    }
}

/// Two images, what they were at first, and the keys that are asked for.
pub struct World {
    memory: [Guarded; 2],
    pub images: [Lent; 2],
    pub targets: [Target; 2],
    pub keys: Vec<Vec<u8>>,
}

impl World {
    pub fn new(kinds: [Kind; 2], rng: &mut Rng) -> World {
        let bytes = kinds.map(|kind| kind.sound(rng));
        World::of(
            bytes,
            kinds.map(|kind| matches!(kind, Kind::Small { at_end: true })),
            rng,
        )
    }

    /// Images of any bytes, each at the start or at the end of its pages.
    pub fn of(bytes: [Vec<u8>; 2], at_end: [bool; 2], rng: &mut Rng) -> World {
        let memory = [Guarded::new(bytes[0].len()), Guarded::new(bytes[1].len())];
        let mut places = [0, 1].map(|t| {
            memory[t].fill();
            let at = memory[t].put(&bytes[t], at_end[t]) as usize;
            let length = bytes[t].len();
            Some((Lent { at, length }, Target::new(at as *mut u8, bytes[t].clone())))
        });
        let [Some((one, first)), Some((two, second))] = [places[0].take(), places[1].take()] else {
            unreachable!("both are there");
        };
        World {
            memory,
            images: [one, two],
            targets: [first, second],
            keys: (0..400).map(|_| key(rng)).collect(),
        }
    }

    /// Addresses and lengths of the images.
    pub fn places(&self) -> [(usize, usize); 2] {
        self.images.map(|image| (image.at, image.length))
    }

    /// What was changed outside an image, if anything; the known bytes are put there again.
    pub fn changed_outside(&self, t: usize) -> Option<String> {
        let (memory, image) = (&self.memory[t], self.images[t]);
        let from = image.at - memory.start() as usize;
        let changed = memory.changed_outside(from, image.length)?;
        memory.fill_outside(from, image.length);
        let (length, pages) = (image.length, memory.length());
        Some(format!(
            "byte {changed} of {pages} changed, the image has {length} of them, from {from} on"
        ))
    }
}
