//! Keys, values, numbers and heights in several shapes, drawn by a run's generator.

use crate::model::MAX_NUMBER;
use crate::rng::Rng;

/// The shape of the entries of one case.
#[derive(Clone, Copy, Debug)]
pub struct Shape {
    keys: usize,
    numbers: usize,
    heights: usize,
    /// Bad arguments are drawn now and then.
    pub wild: bool,
}

impl Shape {
    pub fn draw(rng: &mut Rng, wild: bool) -> Shape {
        Shape {
            keys: rng.below(5),
            numbers: rng.below(4),
            heights: rng.below(4),
            wild,
        }
    }

    pub fn key(&self, rng: &mut Rng) -> Vec<u8> {
        if self.wild && rng.one_in(60) {
            let length = *rng.pick(&[119, 120, 1_023, 1_024, 1_024, 1_025, 1_025, 2_000, 16_500]);
            return vec![b'k'; length];
        }
        match self.keys {
            // Many equal keys and prefixes of each other, the empty one among them.
            0 => (0..rng.below(4)).map(|_| *rng.pick(b"ab")).collect(),
            // Bytes on both sides of the sign.
            1 => (0..rng.below(3)).map(|_| *rng.pick(&[0, 0x7f, 0x80, 0xff])).collect(),
            // Long common fronts.
            2 => {
                let mut key = b"slot 0000:00:".to_vec();
                key.extend(format!("{:02x}.{}", rng.below(32), rng.below(8)).bytes());
                key.resize(key.len() + rng.below(3) * 8, b'/');
                key
            }
            // Few keys with many numbers.
            3 => vec![b'a' + rng.below(3) as u8],
            // Any bytes; one to three bytes mostly.
            _ => {
                let length = if rng.one_in(8) { rng.below(200) } else { rng.below(4) };
                rng.bytes(length)
            }
        }
    }

    pub fn number(&self, rng: &mut Rng) -> u64 {
        if self.wild && rng.one_in(60) {
            return *rng.pick(&[MAX_NUMBER + 1, u64::MAX, 1 << 63]);
        }
        match self.numbers {
            0 => rng.below(8) as u64,
            1 => rng.below(200) as u64,
            2 => *rng.pick(&[0, 1, MAX_NUMBER - 1, MAX_NUMBER]),
            _ => rng.word() & MAX_NUMBER,
        }
    }

    pub fn kind(&self, rng: &mut Rng) -> u8 {
        if self.wild && rng.one_in(80) {
            return *rng.pick(&[2, 3, 128, 255]);
        }
        u8::from(!rng.one_in(3))
    }

    pub fn value(&self, rng: &mut Rng) -> Vec<u8> {
        if self.wild && rng.one_in(60) {
            let length = *rng.pick(&[127, 128, 4_096, 4_096, 4_097, 4_097, 20_000]);
            return vec![b'v'; length];
        }
        let length = rng.below(6);
        rng.bytes(length)
    }

    pub fn height(&self, rng: &mut Rng) -> usize {
        if self.wild && rng.one_in(60) {
            return *rng.pick(&[0, 13, 14, 1 << 32, usize::MAX]);
        }
        match self.heights {
            0 => rng.tower(),
            1 => rng.between(1, 12),
            2 => 1,
            _ => rng.between(1, 3),
        }
    }

    /// The length of an image: short ones fill up soon.
    pub fn length(&self, rng: &mut Rng) -> usize {
        if self.wild && rng.one_in(25) {
            return *rng.pick(&[0, 1, 63, 65_537, 70_000]);
        }
        match rng.below(20) {
            0 => 64,
            1 => rng.between(64, 100),
            2..=9 => rng.between(100, 700),
            10..=17 => rng.between(700, 3_000),
            18 => rng.between(3_000, 12_000),
            _ => 65_536,
        }
    }
}
