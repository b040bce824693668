//! One table as document 01 describes it, over plain lists: what each call answers, and every byte of the image afterwards.

use std::cmp::Ordering;

pub const LEVELS: usize = 12;
pub const MAX_NUMBER: u64 = (1 << 56) - 1;
pub const VALUE: u8 = 1;

#[derive(Clone, Debug, PartialEq, Eq)]
pub struct Entry {
    pub key: Vec<u8>,
    pub number: u64,
    pub kind: u8,
    pub value: Vec<u8>,
}

impl Entry {
    /// Keys ascending, numbers of equal keys descending.
    pub fn order(&self, key: &[u8], number: u64) -> Ordering {
        self.key.as_slice().cmp(key).then(number.cmp(&self.number))
    }

    pub fn encode(&self) -> Vec<u8> {
        let mut out = Vec::new();
        varint(&mut out, self.key.len() + 8);
        out.extend_from_slice(&self.key);
        out.extend_from_slice(&((self.number << 8) | u64::from(self.kind)).to_le_bytes());
        varint(&mut out, self.value.len());
        out.extend_from_slice(&self.value);
        out
    }

    /// What a view of the value shows.
    pub fn shown(&self) -> &[u8] {
        if self.kind == VALUE {
            &self.value
        } else {
            &[]
        }
    }
}

fn varint(out: &mut Vec<u8>, mut number: usize) {
    while number >= 128 {
        out.push((number % 128) as u8 + 128);
        number /= 128;
    }
    out.push(number as u8);
}

#[derive(Clone, Debug)]
pub struct Node {
    pub entry: Entry,
    pub height: usize,
    offset: usize,
}

/// A table whose image is sound, or whose header is bad.
#[derive(Clone, Debug)]
pub struct Model {
    pub image: Vec<u8>,
    pub bad_header: bool,
    /// By number, from 1; index 0 is node 1.
    pub nodes: Vec<Node>,
    /// Indices of the nodes in the order of their entries.
    pub sorted: Vec<usize>,
    free: usize,
}

#[derive(Clone, Copy, Debug, PartialEq, Eq)]
pub enum Answer {
    Absent,
    Found(usize),
    Deleted,
}

impl Model {
    /// Makes bytes a fresh table; the refusal's number beside it.
    pub fn fresh(bytes: Vec<u8>) -> (Model, u32) {
        let bad_header = !(64..=65_536).contains(&bytes.len());
        let mut model = Model {
            image: bytes,
            bad_header,
            nodes: Vec::new(),
            sorted: Vec::new(),
            free: 64,
        };
        if !bad_header {
            model.render();
        }
        (model, u32::from(bad_header))
    }

    fn put_word(&mut self, at: usize, word: usize) {
        self.image[at..at + 4].copy_from_slice(&(word as u32).to_le_bytes());
    }

    // Header, nodes and slots, from the lists alone.
    fn render(&mut self) {
        let length = self.image.len();
        for (at, word) in [(0, length), (4, self.nodes.len()), (8, self.free), (12, LEVELS)] {
            self.put_word(at, word);
        }
        let mut next = [0usize; LEVELS];
        for index in self.sorted.clone().into_iter().rev() {
            let Node { entry, height, offset } = self.nodes[index].clone();
            let bytes = entry.encode();
            self.put_word(offset, height);
            self.put_word(offset + 4, bytes.len());
            for (level, link) in next.iter_mut().enumerate().take(height) {
                self.put_word(offset + 8 + 4 * level, *link);
                *link = index + 1;
            }
            let at = offset + 8 + 4 * height;
            self.image[at..at + bytes.len()].copy_from_slice(&bytes);
            self.put_word(length - 4 * (index + 1), offset);
        }
        for (level, link) in next.into_iter().enumerate() {
            self.put_word(16 + 4 * level, link);
        }
    }

    /// Where in the order the first entry at or after a key and a number is.
    pub fn lower(&self, key: &[u8], number: u64) -> usize {
        self.sorted
            .partition_point(|&index| self.nodes[index].entry.order(key, number) == Ordering::Less)
    }

    /// The number of the node at a place of the order; 0 behind the last.
    pub fn node_at(&self, place: usize) -> usize {
        self.sorted.get(place).map_or(0, |index| index + 1)
    }

    pub fn entry(&self, node: usize) -> Option<&Entry> {
        self.nodes.get(node.checked_sub(1)?).map(|node| &node.entry)
    }

    /// Where key and value of a node stand in the image, and their lengths; a deletion shows no value.
    pub fn parts(&self, node: usize) -> Option<[(usize, usize); 2]> {
        let Node { entry, height, offset } = self.nodes.get(node.checked_sub(1)?)?;
        let key_at = offset + 8 + 4 * height + if entry.key.len() + 8 < 128 { 1 } else { 2 };
        let value_end = offset + 8 + 4 * height + entry.encode().len();
        let value_at = value_end - entry.value.len();
        Some([(key_at, entry.key.len()), (value_at, entry.shown().len())])
    }

    /// The links that a search for a key and a number examines.
    pub fn looks(&self, key: &[u8], number: u64) -> usize {
        let (mut looks, mut from, mut level) = (0, 0, LEVELS);
        while level > 0 {
            looks += 1;
            let ahead = (from..self.sorted.len()).find(|&place| self.nodes[self.sorted[place]].height >= level);
            let order = ahead.map(|place| self.nodes[self.sorted[place]].entry.order(key, number));
            match (ahead, order) {
                (Some(place), Some(Ordering::Less)) => from = place + 1,
                (Some(_), Some(Ordering::Equal)) => break,
                _ => level -= 1,
            }
        }
        looks
    }

    pub fn add(&mut self, entry: Entry, height: usize) -> (u32, usize) {
        let added = self.add_unrendered(entry, height);
        if added.0 == 0 {
            self.render();
        }
        added
    }

    /// Adds to the lists alone and leaves the image behind.
    pub fn add_unrendered(&mut self, entry: Entry, height: usize) -> (u32, usize) {
        let refusal = self.refuses(&entry, height);
        if refusal != 0 {
            return (refusal, 0);
        }
        let place = self.lower(&entry.key, entry.number);
        let offset = self.free;
        self.free += 8 + 4 * height + entry.encode().len();
        self.nodes.push(Node { entry, height, offset });
        self.sorted.insert(place, self.nodes.len() - 1);
        (0, self.nodes.len())
    }

    fn refuses(&self, entry: &Entry, height: usize) -> u32 {
        if self.bad_header {
            1
        } else if entry.kind > 1 {
            2
        } else if entry.number > MAX_NUMBER {
            3
        } else if entry.key.len() > 1_024 {
            4
        } else if entry.value.len() > 4_096 {
            5
        } else if !(1..=LEVELS).contains(&height) {
            6
        } else if self.holds(&entry.key, entry.number) {
            8
        } else {
            let needed = 12 + 4 * height + entry.encode().len();
            let free = self.image.len() - 4 * self.nodes.len() - self.free;
            7 * u32::from(self.nodes.len() >= 4_096 || needed > free)
        }
    }

    fn holds(&self, key: &[u8], number: u64) -> bool {
        let at = self.entry(self.node_at(self.lower(key, number)));
        at.is_some_and(|entry| entry.order(key, number) == Ordering::Equal)
    }

    /// The newest entry of a key up to a snapshot: refusal, answer, looks.
    pub fn get(&self, key: &[u8], snapshot: u64) -> (u32, Answer, usize) {
        let refusal = self.asks(key, snapshot);
        if refusal != 0 {
            return (refusal, Answer::Absent, 0);
        }
        let node = self.node_at(self.lower(key, snapshot));
        let answer = match self.entry(node) {
            Some(entry) if entry.key == key && entry.kind == VALUE => Answer::Found(node),
            Some(entry) if entry.key == key => Answer::Deleted,
            _ => Answer::Absent,
        };
        (0, answer, self.looks(key, snapshot))
    }

    fn asks(&self, key: &[u8], number: u64) -> u32 {
        if self.bad_header {
            1
        } else if number > MAX_NUMBER {
            3
        } else {
            4 * u32::from(key.len() > 1_024)
        }
    }

    /// Whether an entry is held: refusal, answer, looks.
    pub fn contains(&self, key: &[u8], number: u64, kind: u8) -> (u32, bool, usize) {
        let refusal = match self.asks(key, number) {
            1 => 1,
            _ if kind > 1 => 2,
            other => other,
        };
        if refusal != 0 {
            return (refusal, false, 0);
        }
        let at = self.entry(self.node_at(self.lower(key, number)));
        let held = self.holds(key, number) && at.is_some_and(|entry| entry.kind == kind);
        (0, held, self.looks(key, number))
    }
}
