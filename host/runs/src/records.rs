//! Answers of the oracles as lines of a text, to be replayed: RECORDS.md has the format.

use crate::gen::Shape;
use crate::model::{Entry, Model};
use crate::rng::Rng;
use crate::words::{bytes, entry, refused_or, TABLES};

/// The line that the recorded part of a text begins with; what stands above it is written by hand.
pub const HEADING: &str = "# == Recorded answers";

/// Who answers: the words behind `by`, in the order of the counts.
pub const SOURCES: [&str; 5] = ["document", "set-up", "model", "crate", "leveldb"];
pub const SET_UP: usize = 1;
pub const MODEL: usize = 2;
pub const CRATE: usize = 3;
pub const LEVELDB: usize = 4;

/// Gathers lines, and the two tables that they make.
pub struct Writer {
    pub text: String,
    pub models: [Model; 2],
    counts: [usize; 5],
    by: usize,
}

impl Default for Writer {
    fn default() -> Writer {
        let empty = || Model::fresh(vec![0; 64]).0;
        Writer {
            text: String::new(),
            models: [empty(), empty()],
            counts: [0; 5],
            by: 0,
        }
    }
}

impl Writer {
    /// A line that asks nothing.
    pub fn line(&mut self, line: &str) {
        self.text += line;
        self.text.push('\n');
    }

    /// A call with the answer that a source gives.
    pub fn call(&mut self, by: usize, call: &str, answer: &str) {
        if by != self.by {
            self.by = by;
            self.line(&format!("by {}", SOURCES[by]));
        }
        self.counts[by] += 1;
        self.line(&format!("{call} -> {answer}"));
    }

    /// Begins a case: cursors nowhere, both images of zero bytes, fresh.
    pub fn case(&mut self, lengths: [usize; 2]) {
        self.line(&format!("\ncase {} {}", lengths[0], lengths[1]));
        for (t, length) in lengths.into_iter().enumerate() {
            let (model, refusal) = Model::fresh(vec![0; length]);
            self.models[t] = model;
            let answer = refused_or(refusal, || "done".into());
            self.call(SET_UP, &format!("fresh {}", TABLES[t]), &answer);
        }
    }

    /// An addition; whether it is accepted.
    pub fn add(&mut self, by: usize, t: usize, added: Entry, height: usize) -> bool {
        let call = format!("add {} {} h{height}", TABLES[t], entry(&added));
        let (refusal, node) = self.models[t].add(added, height);
        let answer = refused_or(refusal, || format!("node {node}"));
        self.call(by, &call, &answer);
        refusal == 0
    }

    /// A lookup in the pair, by one who tells a row's value, or that there is none.
    pub fn row(&mut self, by: usize, key: &[u8], snapshot: u64, value: Option<&[u8]>) {
        let answer = value.map_or("none".into(), bytes);
        self.call(by, &format!("row {}@{snapshot}", bytes(key)), &answer);
    }

    /// A move of the visible cursor, and the row that a source shows after it.
    pub fn moved(&mut self, by: usize, call: &str, row: Option<(&[u8], &[u8])>) {
        let shown = |(key, value)| format!("{}={} ..", bytes(key), bytes(value));
        self.call(by, call, &row.map_or("nowhere".into(), shown));
    }

    /// The text, and how many answers each source gave.
    pub fn finish(self) -> (String, [usize; 5]) {
        (self.text, self.counts)
    }
}

/// A key of at most eight bytes.
pub fn short_key(rng: &mut Rng, shape: &Shape) -> Vec<u8> {
    let mut key = shape.key(rng);
    key.truncate(8);
    key
}
