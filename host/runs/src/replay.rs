//! Replays a text of cases through the library. A program in the gate (crates/cases) does the same; this one shows how from Rust, and
//! tests what the recorder writes.

use crate::given::{bytes, entry, hex, keyed};
use crate::records::SOURCES;
use crate::words::{self, hex_words, looked, presence, refused_move, refused_or, TABLES};
use bavolinesk::raw::{self, Cursor, EntryCursor};

/// What the lines carry: the tables, the cursors, who answers, and the bytes before the last fresh or add with its table.
struct State {
    images: [Vec<u8>; 2],
    at: Cursor,
    entry_at: [EntryCursor; 2],
    by: usize,
    before: (usize, Vec<u8>),
}

/// A line's answer; empty of one that asks nothing. `None`: there is no such line.
type Told = Option<String>;

fn quiet() -> Told {
    Some(String::new())
}

fn table(word: &str) -> Option<usize> {
    TABLES.iter().position(|letter| *letter == word)
}

/// A part of an image, or its refusal.
fn shown(refusal: u32, part: &[u8]) -> String {
    refused_or(refusal, || words::bytes(part))
}

impl State {
    fn image(&self, t: usize) -> &[u8] {
        &self.images[t]
    }

    fn value(&self, t: usize, node: usize) -> String {
        let view = raw::value(self.image(t), node);
        shown(view.refusal, view.of(self.image(t)))
    }

    /// Does what a line asks for before its arrow.
    fn follow(&mut self, call: &str) -> Told {
        let words: Vec<&str> = call.split(' ').collect();
        match words[..] {
            ["case", one, two] => {
                self.images = [vec![0; one.parse().ok()?], vec![0; two.parse().ok()?]];
                self.at = Cursor::NOWHERE;
                self.entry_at = [EntryCursor::NOWHERE; 2];
                quiet()
            }
            ["by", name] => {
                self.by = SOURCES.iter().position(|source| *source == name)?;
                quiet()
            }
            ["cursor", table, node] => {
                let (table, node) = (table.parse().ok()?, node.parse().ok()?);
                self.at = Cursor { table, node };
                quiet()
            }
            ["entry_cursor", t, on, node] => {
                let (on, node) = (on.parse().ok()?, node.parse().ok()?);
                self.entry_at[table(t)?] = EntryCursor { on, node };
                quiet()
            }
            ["lend", t, length, with] => {
                let [with] = hex(with)?[..] else { return None };
                self.images[table(t)?] = vec![with; length.parse().ok()?];
                quiet()
            }
            ["set", t, from, with] => {
                let (from, with): (usize, _) = (from.parse().ok()?, hex(with)?);
                let part = self.images[table(t)?].get_mut(from..from + with.len())?;
                part.copy_from_slice(&with);
                quiet()
            }
            ["changed"] => Some(self.changed()),
            ["fresh", t] => self.written(table(t)?, |image| (raw::fresh(image), "done".into())),
            ["add", t, word, height] => {
                let (key, number, kind, value) = entry(word)?;
                let height = height.strip_prefix('h')?.parse().ok()?;
                self.written(table(t)?, |image| {
                    let added = raw::add(image, &key, number, kind, &value, height);
                    (added.refusal, format!("node {}", added.node))
                })
            }
            ["row_key" | "row_value" | "row_refusal"] => Some(self.row_view(call)),
            [name, word] if word.contains('@') => self.over_both(name, word),
            [name, t] => self.at_entry_cursor(name, table(t)?, None),
            ["bytes", t, from, count] => {
                let (from, count): (usize, usize) = (from.parse().ok()?, count.parse().ok()?);
                let image = self.image(table(t)?);
                Some(hex_words(image.get(from..from.checked_add(count)?)?))
            }
            ["entry_seek", t, word] => self.at_entry_cursor("entry_seek", table(t)?, Some(word)),
            [name, t, word] => self.on_table(name, table(t)?, word),
            _ => None,
        }
    }

    /// A call that writes; a refused one is to keep every byte.
    fn written(&mut self, t: usize, call: impl FnOnce(&mut [u8]) -> (u32, String)) -> Told {
        self.before = (t, self.images[t].clone());
        let (refusal, answer) = call(&mut self.images[t]);
        let kept = refusal == 0 || self.before.1 == self.images[t];
        let words = if kept { "" } else { " but bytes changed" };
        Some(refused_or(refusal, || answer) + words)
    }

    /// The stretches of bytes that are others than before the last call that writes.
    fn changed(&self) -> String {
        let (t, before) = &self.before;
        let image = self.image(*t);
        let differs = |i: usize| image.get(i).unwrap_or(&0) != before.get(i).unwrap_or(&0);
        let mut said = String::new();
        for i in (0..image.len()).filter(|i| differs(*i)) {
            if i == 0 || !differs(i - 1) {
                said += &format!(" {i}");
            } else if !differs(i + 1) {
                said += &format!("-{i}");
            }
        }
        said.strip_prefix(' ').unwrap_or("nothing").into()
    }

    fn on_table(&self, name: &str, t: usize, word: &str) -> Told {
        let image = self.image(t);
        let answer = match name {
            "get" => {
                let (key, snapshot) = keyed(word)?;
                let got = raw::get(image, &bytes(key)?, snapshot);
                let found = || format!("{} node {}", self.value(t, got.node), got.node);
                refused_or(got.refusal, || looked(got.answer, got.looks, found))
            }
            "get_value" => {
                let (key, snapshot) = keyed(word)?;
                view_at(image, raw::get_value(image, &bytes(key)?, snapshot))
            }
            "contains" => {
                let (key, number, kind, value) = entry(word)?;
                let got = value.is_empty().then(|| raw::contains(image, &key, number, kind))?;
                refused_or(got.refusal, || presence(got.held == 1, got.looks))
            }
            "value" => view_at(image, raw::value(image, word.parse().ok()?)),
            "value_refusal" => raw::value_refusal(image, word.parse().ok()?).to_string(),
            _ => return None,
        };
        Some(answer)
    }

    /// The check, and the calls on a table's entry cursor.
    fn at_entry_cursor(&mut self, name: &str, t: usize, sought: Option<&str>) -> Told {
        let (image, at) = (self.image(t), self.entry_at[t]);
        let moved = match (name, sought) {
            ("check", _) => return Some(if raw::check(image) { "sound" } else { "not sound" }.into()),
            ("entry_key", _) => return Some(view_at(image, raw::entry_key(image, at))),
            ("entry_value", _) => return Some(view_at(image, raw::entry_value(image, at))),
            ("entry_number", _) => return Some(raw::entry_number(image, at).to_string()),
            ("entry_kind", _) => return Some(raw::entry_kind(image, at).to_string()),
            ("entry_refusal", _) => return Some(raw::entry_refusal(image, at).to_string()),
            ("entry_first", _) => raw::entry_first(image, at),
            ("entry_next", _) => raw::entry_next(image, at),
            ("entry_prev", _) => raw::entry_prev(image, at),
            ("entry_seek", Some(word)) => {
                let (key, number) = keyed(word)?;
                raw::entry_seek(image, at, &bytes(key)?, number)
            }
            _ => return None,
        };
        let to = moved.cursor();
        let answer = match (moved.refusal, to.on) {
            (0, 0) => "nowhere".into(),
            (0, _) => {
                let (key, value) = (raw::entry_key(image, to), raw::entry_value(image, to));
                let kind = raw::entry_kind(image, to);
                let value = match (kind, value.of(image)) {
                    (0, []) => String::new(),
                    (_, part) => shown(value.refusal, part),
                };
                let key = shown(key.refusal, key.of(image));
                let number = raw::entry_number(image, to);
                format!("{key}@{number}{}{value} node {}", words::mark(kind), to.node)
            }
            (refusal, on) => refused_move(refusal, on, to.node),
        };
        self.entry_at[t] = to;
        Some(answer)
    }

    /// The lookups in a pair, and the moves of the visible cursor.
    fn over_both(&mut self, name: &str, word: &str) -> Told {
        let (one, two) = (self.image(0), self.image(1));
        let (key, snapshot) = keyed(word)?;
        let moved = match (name, key) {
            ("first", "") => raw::first(one, two, snapshot, self.at),
            ("next", "") => raw::next(one, two, snapshot, self.at),
            ("prev", "") => raw::prev(one, two, snapshot, self.at),
            ("seek", _) => raw::seek(one, two, snapshot, self.at, &bytes(key)?),
            ("pair_get" | "row", _) => return Some(self.pair_get(name, &bytes(key)?, snapshot)),
            _ => return None,
        };
        let to = moved.cursor();
        let answer = match (moved.refusal, to.table) {
            (0, 0) => "nowhere".into(),
            (0, table) => {
                let (key, value) = (raw::row_key(one, two, to), raw::row_value(one, two, to));
                let (key, value) = (
                    shown(key.refusal, key.of(one, two)),
                    shown(value.refusal, value.of(one, two)),
                );
                format!("{key}={value} in {} node {}", TABLES[table as usize - 1], to.node)
            }
            (refusal, table) => refused_move(refusal, table, to.node),
        };
        self.at = to;
        Some(answer)
    }

    fn pair_get(&self, name: &str, key: &[u8], snapshot: u64) -> String {
        let got = raw::pair_get(self.image(0), self.image(1), key, snapshot);
        let t = usize::from(got.table == 2);
        let value = || self.value(t, got.node);
        let found = || format!("{} in {} node {}", value(), TABLES[t], got.node);
        refused_or(got.refusal, || match (name, got.answer) {
            ("row", 1) => value(),
            ("row", _) => "none".into(),
            (_, answer) => looked(answer, got.looks, found),
        })
    }

    fn row_view(&self, name: &str) -> String {
        let (one, two) = (self.image(0), self.image(1));
        let view = match name {
            "row_key" => raw::row_key(one, two, self.at),
            "row_value" => raw::row_value(one, two, self.at),
            _ => return raw::row_refusal(one, two, self.at).to_string(),
        };
        let place = match (view.refusal, view.table) {
            (0, 0) => " nowhere".into(),
            (0, table) => format!(" in {} at {}", TABLES[table as usize - 1], view.offset),
            _ => String::new(),
        };
        shown(view.refusal, view.of(one, two)) + &place
    }
}

/// A part of an image and where it stands, or its refusal.
fn view_at(image: &[u8], view: raw::View) -> String {
    refused_or(view.refusal, || {
        format!("{} at {}", words::bytes(view.of(image)), view.offset)
    })
}

/// Whether an answer is the expected one; two dots at the end stand for what is not told.
fn holds(expected: &str, answer: &str) -> bool {
    match expected.strip_suffix(" ..") {
        Some(told) => answer.starts_with(&format!("{told} ")),
        None => expected == answer,
    }
}

/// Replays a text: how many answers each source gave, or the first line that does not hold.
pub fn replay(text: &str) -> Result<[usize; 5], String> {
    let mut counts = [0; 5];
    let mut state = State {
        images: [vec![0; 64], vec![0; 64]],
        at: Cursor::NOWHERE,
        entry_at: [EntryCursor::NOWHERE; 2],
        by: 0,
        before: (0, Vec::new()),
    };
    let lines = text.lines().enumerate();
    for (index, line) in lines.filter(|(_, line)| !line.is_empty() && !line.starts_with('#')) {
        let (call, expected) = line.split_once(" -> ").unwrap_or((line, ""));
        let answer = state
            .follow(call)
            .ok_or(format!("line {} is no line: {line}", index + 1))?;
        if !holds(expected, &answer) {
            return Err(format!("line {}: {line}, came out: {answer}", index + 1));
        }
        counts[state.by] += usize::from(!answer.is_empty());
    }
    Ok(counts)
}
