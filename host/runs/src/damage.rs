//! Calls on images that may be damaged: each returns, keeps to its bounds, and changes nothing where it refuses. On images that are
//! still sound each answer is the model's.

use crate::checker::{header, sound, word};
use crate::gen::Shape;
use crate::model::{Answer, Entry, Model};
use crate::rng::Rng;
use bavolinesk::raw::{self, Cursor, EntryCursor};
use std::collections::HashSet;
use std::time::{Duration, Instant};

#[derive(Debug, Default)]
pub struct Counts {
    pub calls: u64,
    pub images: u64,
    pub sound_images: u64,
    pub refusals: [u64; 11],
    /// The most looks of a lookup or presence, beside the bound for its table.
    pub most_looks: (usize, usize),
    /// How often a search took exactly as many looks as the bound allows.
    pub at_bound: u64,
    pub slowest: Duration,
}

/// Two images and what is known of them.
pub struct Images {
    pub bytes: [Box<[u8]>; 2],
    pub(crate) headers: [Option<(usize, usize)>; 2],
    pub(crate) models: [Option<Model>; 2],
    /// Every call gets copies of its own, of exact length.
    exact: bool,
}

impl Images {
    pub fn new(bytes: [Box<[u8]>; 2], exact: bool, counts: &mut Counts) -> Images {
        let headers = [header(&bytes[0]), header(&bytes[1])];
        let models = [sound(&bytes[0]), sound(&bytes[1])];
        for (image, model) in bytes.iter().zip(&models) {
            assert_eq!(
                raw::check(image),
                model.is_some(),
                "check and the checker disagree on {image:02x?}"
            );
            counts.calls += 1;
            counts.images += 1;
            counts.sound_images += u64::from(model.is_some());
        }
        Images {
            bytes,
            headers,
            models,
            exact,
        }
    }

    // The refusal of a cursor in one table: 1, 10 or none.
    pub(crate) fn names(&self, t: usize, on: u32, node: usize) -> u32 {
        match self.headers[t] {
            None => 1,
            Some((count, _)) => 10 * u32::from(on > 1 || (on == 1 && !(1..=count).contains(&node))),
        }
    }

    pub(crate) fn names_row(&self, at: Cursor) -> u32 {
        match (self.headers[0], self.headers[1], at.table) {
            (None, _, _) | (_, None, _) => 1,
            (_, _, 0) => 0,
            (_, _, 1) => self.names(0, 1, at.node),
            (_, _, 2) => self.names(1, 1, at.node),
            _ => 10,
        }
    }
}

// The refusal of the arguments comes first; past it there may be damage, unless the image is sound.
pub(crate) fn refusal_fits(got: u32, expected: u32, is_sound: bool, more: &[u32]) {
    if expected != 0 {
        assert_eq!(got, expected, "the refusal of the arguments");
        return;
    }
    let damage = got == 9 && !is_sound;
    assert!(
        got == 0 || damage || more.contains(&got),
        "refusal {got}, sound: {is_sound}"
    );
}

pub(crate) fn part_fits(image: &[u8], refusal: u32, offset: usize, length: usize) {
    assert!(
        offset <= image.len() && length <= image.len() - offset,
        "a part outside its image"
    );
    assert!(refusal == 0 || length == 0, "a refused view is empty");
}

pub(crate) fn asked(key: &[u8], number: u64, before: u32) -> u32 {
    match before {
        0 if number > crate::model::MAX_NUMBER => 3,
        0 if key.len() > 1_024 => 4,
        other => other,
    }
}

// Where the links of the head stand, and those of every node that begins behind the header and has a legal height.
fn link_places(image: &[u8], count: usize, free: usize) -> HashSet<usize> {
    let mut places: HashSet<usize> = (0..12).map(|level| 16 + 4 * level).collect();
    for number in 1..=count {
        let Some(at) = word(image, image.len() - 4 * number) else {
            continue;
        };
        let height = word(image, at).filter(|height| (1..=12).contains(height) && at >= 64 && at + 8 <= free);
        places.extend((0..height.unwrap_or(0)).map(|level| at + 8 + 4 * level));
    }
    places
}

/// Draws calls and makes them.
pub struct Caller<'a> {
    pub rng: &'a mut Rng,
    pub shape: Shape,
    pub counts: &'a mut Counts,
}

impl Caller<'_> {
    pub(crate) fn timed<T>(&mut self, call: impl FnOnce() -> T) -> T {
        let before = Instant::now();
        let answer = call();
        self.counts.slowest = self.counts.slowest.max(before.elapsed());
        self.counts.calls += 1;
        answer
    }

    fn looked(&mut self, looks: usize, most: usize) {
        assert!(looks <= most, "{looks} looks, {most} are allowed");
        self.counts.at_bound += u64::from(looks == most);
        self.counts.most_looks = self.counts.most_looks.max((looks, most));
    }

    // A key out of the image, most often, so that searches go far.
    pub(crate) fn key(&mut self, images: &Images, t: usize) -> Box<[u8]> {
        let count = images.headers[t].map_or(0, |(count, _)| count);
        // Above every key, so that a search passes all that it meets.
        if self.rng.one_in(6) {
            return vec![0xff; self.rng.between(1, 220)].into();
        }
        if self.rng.one_in(3) || count == 0 {
            return self.shape.key(self.rng).into_boxed_slice();
        }
        let at = EntryCursor::on(self.rng.between(1, count));
        raw::entry_key(&images.bytes[t], at).of(&images.bytes[t]).into()
    }

    pub(crate) fn node(&mut self, images: &Images, t: usize) -> usize {
        let count = images.headers[t].map_or(9, |(count, _)| count);
        match self.rng.below(12) {
            0 => 0,
            1 => count + 1,
            2 => *self.rng.pick(&[4_097, usize::MAX, 1 << 32, usize::MAX / 4 + 1]),
            _ => self.rng.between(1, count.max(1)),
        }
    }

    /// One call with all that must hold of it.
    pub fn call(&mut self, images: &mut Images) {
        if images.exact {
            images.bytes = [images.bytes[0].to_vec().into(), images.bytes[1].to_vec().into()];
        }
        let t = self.rng.below(2);
        let refusal = match self.rng.below(10) {
            0 => self.add(images, t),
            1 => self.get(images, t),
            2 => self.contains(images, t),
            3 => self.pair_get(images),
            4 | 5 => self.entry_cursor(images, t),
            6 => self.entry_views(images, t),
            7 | 8 => self.visible_cursor(images),
            _ => self.row_views(images),
        };
        self.counts.refusals[refusal as usize] += 1;
    }

    fn get(&mut self, images: &Images, t: usize) -> u32 {
        let (key, snapshot) = (self.key(images, t), self.shape.number(self.rng));
        let found = self.timed(|| raw::get(&images.bytes[t], &key, snapshot));
        let header = images.headers[t];
        let expected = asked(&key, snapshot, u32::from(header.is_none()));
        refusal_fits(found.refusal, expected, images.models[t].is_some(), &[]);
        let count = header.map_or(0, |(count, _)| count);
        self.looked(found.looks, count + 12);
        assert!(found.answer <= 2 && (found.answer == 1) == (1..=count).contains(&found.node));
        if let Some(model) = &images.models[t] {
            let (_, answer, looks) = model.get(&key, snapshot);
            let answer = match answer {
                Answer::Absent => (0, 0),
                Answer::Found(node) => (1, node),
                Answer::Deleted => (2, 0),
            };
            assert_eq!((found.answer, found.node, found.looks), (answer.0, answer.1, looks));
        }
        found.refusal
    }

    fn contains(&mut self, images: &Images, t: usize) -> u32 {
        let (key, number, kind) = (
            self.key(images, t),
            self.shape.number(self.rng),
            self.shape.kind(self.rng),
        );
        let found = self.timed(|| raw::contains(&images.bytes[t], &key, number, kind));
        let expected = match u32::from(images.headers[t].is_none()) {
            0 if kind > 1 => 2,
            before => asked(&key, number, before),
        };
        refusal_fits(found.refusal, expected, images.models[t].is_some(), &[]);
        self.looked(found.looks, images.headers[t].map_or(0, |(count, _)| count) + 12);
        if let Some(model) = &images.models[t] {
            let (_, held, looks) = model.contains(&key, number, kind);
            assert_eq!((found.held, found.looks), (u32::from(held), looks));
        }
        found.refusal
    }

    fn pair_get(&mut self, images: &Images) -> u32 {
        let t = self.rng.below(2);
        let (key, snapshot) = (self.key(images, t), self.shape.number(self.rng));
        let [one, two] = &images.bytes;
        let found = self.timed(|| raw::pair_get(one, two, &key, snapshot));
        let before = images.headers.iter().any(Option::is_none);
        let expected = asked(&key, snapshot, u32::from(before));
        refusal_fits(found.refusal, expected, images.models.iter().all(Option::is_some), &[]);
        let [a, b] = images.headers.map(|header| header.map_or(0, |(count, _)| count));
        self.looked(found.looks, a + b + 24);
        let inside = match found.table {
            1 => (1..=a).contains(&found.node),
            2 => (1..=b).contains(&found.node),
            _ => found.table == 0 && found.node == 0,
        };
        assert!(inside && (found.answer == 1) == (found.table != 0));
        found.refusal
    }

    fn add(&mut self, images: &mut Images, t: usize) -> u32 {
        let key = self.key(images, t);
        let (number, kind) = (self.shape.number(self.rng), self.shape.kind(self.rng));
        let (value, height) = (
            self.shape.value(self.rng).into_boxed_slice(),
            self.shape.height(self.rng),
        );
        let mut image: Box<[u8]> = images.bytes[t].to_vec().into();
        let added = self.timed(|| raw::add(&mut image, &key, number, kind, &value, height));
        let expected = match (images.headers[t], kind, height) {
            (None, _, _) => 1,
            (_, 2.., _) => 2,
            _ => match asked(&key, number, 0) {
                0 if value.len() > 4_096 => 5,
                0 if !(1..=12).contains(&height) => 6,
                other => other,
            },
        };
        refusal_fits(added.refusal, expected, images.models[t].is_some(), &[7, 8]);
        if added.refusal != 0 {
            assert!(
                image == images.bytes[t] && added.node == 0,
                "a refused addition changed a byte"
            );
        } else if let Some(mut model) = images.models[t].clone() {
            model.image = images.bytes[t].to_vec();
            let (key, value) = (key.to_vec(), value.to_vec());
            let entry = Entry {
                key,
                number,
                kind,
                value,
            };
            assert_eq!(model.add(entry, height), (0, added.node));
            assert!(image[..] == model.image[..], "an addition to a sound image");
        } else {
            let entry_length = Entry {
                key: key.to_vec(),
                number,
                kind,
                value: value.to_vec(),
            }
            .encode()
            .len();
            self.kept(
                &images.bytes[t],
                &image,
                added.node,
                height,
                8 + 4 * height + entry_length,
            );
        }
        added.refusal
    }

    // What an addition to an unsound image may change: its node, its slot, count, first free byte, and at most `height` links.
    fn kept(&self, old: &[u8], new: &[u8], node: usize, height: usize, size: usize) {
        let (count, free) = header(old).expect("an addition was accepted");
        assert_eq!(node, count + 1);
        assert_eq!(header(new), Some((count + 1, free + size)));
        let slot = old.len() - 4 * node;
        let places = link_places(old, count, free);
        let (mut links, mut covered) = (0, 0);
        for at in (16..old.len()).filter(|&at| old[at] != new[at]) {
            let own = (free..free + size).contains(&at) || (slot..slot + 4).contains(&at);
            if !own {
                assert!(
                    (at - 3..=at).any(|place| places.contains(&place)),
                    "byte {at} is in no link"
                );
            }
            if !own && at >= covered {
                links += 1;
                covered = at + 4;
            }
        }
        assert!(links <= height, "{links} links changed, {height} are allowed");
    }
}
