//! Bytes, entries and answers as the lines of a text have them (RECORDS.md).

use crate::model::Entry;

/// The letters of the two tables.
pub const TABLES: [&str; 2] = ["A", "B"];

/// More equal bytes than this are written as one letter so many times.
const LONG: usize = 16;

/// Letters and digits as they stand, other bytes in hexadecimal.
pub fn bytes(bytes: &[u8]) -> String {
    let plain = |b: &u8| b.is_ascii_alphanumeric() || *b == b'_';
    match bytes {
        [] => "\"\"".into(),
        [letter, ..] if bytes.iter().all(plain) => {
            if bytes.len() > LONG && bytes.iter().all(|b| b == letter) {
                return format!("{}*{}", *letter as char, bytes.len());
            }
            String::from_utf8_lossy(bytes).into()
        }
        _ => format!("x:{}", hex(bytes)),
    }
}

/// Two digits a byte.
pub fn hex(bytes: &[u8]) -> String {
    bytes.iter().map(|b| format!("{b:02x}")).collect()
}

/// The same in groups of four bytes.
pub fn hex_words(bytes: &[u8]) -> String {
    bytes.chunks(4).map(hex).collect::<Vec<_>>().join(" ")
}

/// The mark of a type, between number and value.
pub fn mark(kind: u8) -> String {
    match kind {
        0 => "-".into(),
        1 => "=".into(),
        _ => format!("~{kind}="),
    }
}

/// An entry as document 01 writes it; an empty value of a deletion is left out.
pub fn entry(entry: &Entry) -> String {
    let value = match (entry.kind, entry.value.as_slice()) {
        (0, []) => String::new(),
        (_, value) => bytes(value),
    };
    format!("{}@{}{}{value}", bytes(&entry.key), entry.number, mark(entry.kind))
}

/// The refusal, or else what there is to say.
pub fn refused_or(refusal: u32, answer: impl FnOnce() -> String) -> String {
    match refusal {
        0 => answer(),
        _ => format!("refused {refusal}"),
    }
}

/// A refused move, with the two numbers of the cursor that it hands back.
pub fn refused_move(refusal: u32, on: u32, node: usize) -> String {
    format!("refused {refusal} back {on} {node}")
}

/// What a lookup said: 0 absent, 1 found, 2 deleted. `found` is the value and where it is.
pub fn looked(answer: u32, looks: usize, found: impl FnOnce() -> String) -> String {
    match answer {
        0 => format!("absent looks {looks}"),
        1 => format!("found {} looks {looks}", found()),
        _ => format!("deleted looks {looks}"),
    }
}

/// What a question for presence said.
pub fn presence(held: bool, looks: usize) -> String {
    format!("{}held looks {looks}", if held { "" } else { "not " })
}
