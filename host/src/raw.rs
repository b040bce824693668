//! The library's calls over plain bytes, with any cursor: nothing is checked before a call and nothing is hidden of its answer.
//!
//! Every call takes any bytes and returns. A refusal is a number from 1 to 10, and 0 is none; a refused call changes no byte.
//!
//! ```
//! use bavolinesk::raw;
//!
//! let mut image = [0u8; 92];
//! assert_eq!(raw::fresh(&mut image), 0);
//! assert_eq!(raw::add(&mut image, b"a", 1, 1, b"x", 1), raw::Added { refusal: 0, node: 1 });
//! assert_eq!(raw::add(&mut image, b"a", 1, 0, b"", 1).refusal, 8);
//! assert!(raw::check(&image));
//! ```

use crate::ffi;

pub use crate::ffi::{Added, Cursor, EntryCursor, EntryMoved, Lookup, Moved, PairLookup, Presence, RowView, View};

impl EntryCursor {
    /// No entry.
    pub const NOWHERE: EntryCursor = EntryCursor { on: 0, node: 0 };

    /// On a node.
    pub fn on(node: usize) -> EntryCursor {
        EntryCursor { on: 1, node }
    }
}

impl EntryMoved {
    /// The cursor that the move hands back.
    pub fn cursor(self) -> EntryCursor {
        EntryCursor {
            on: self.on,
            node: self.node,
        }
    }
}

impl Cursor {
    /// No row.
    pub const NOWHERE: Cursor = Cursor { table: 0, node: 0 };
}

impl Moved {
    /// The cursor that the move hands back.
    pub fn cursor(self) -> Cursor {
        Cursor {
            table: self.table,
            node: self.node,
        }
    }
}

impl View {
    /// The bytes of the part, out of the image that was asked; empty where the part is not in it.
    pub fn of<'a>(&self, image: &'a [u8]) -> &'a [u8] {
        part(image, self.offset, self.length)
    }
}

impl RowView {
    /// The bytes of the part, out of the two images that were asked; empty where the part is not in them.
    pub fn of<'a>(&self, first: &'a [u8], second: &'a [u8]) -> &'a [u8] {
        match self.table {
            1 => part(first, self.offset, self.length),
            2 => part(second, self.offset, self.length),
            _ => &[],
        }
    }
}

fn part(image: &[u8], offset: usize, length: usize) -> &[u8] {
    let end = offset.checked_add(length);
    end.and_then(|end| image.get(offset..end)).unwrap_or(&[])
}

// SAFETY, for every call below: each pointer comes from a slice that lives through the call and stands beside that slice's own
// length; the library reads and writes within these lengths alone and keeps no pointer; the answers are plain numbers.

/// Makes an empty table.
pub fn fresh(image: &mut [u8]) -> u32 {
    unsafe { ffi::bavo_fresh(image.as_mut_ptr(), image.len()) }
}

/// Adds an entry in a node of the given height.
pub fn add(image: &mut [u8], key: &[u8], number: u64, kind: u8, value: &[u8], height: usize) -> Added {
    let (at, len) = (image.as_mut_ptr(), image.len());
    let (value_at, value_len) = (value.as_ptr(), value.len());
    unsafe {
        ffi::bavo_add(
            at,
            len,
            key.as_ptr(),
            key.len(),
            number,
            kind,
            value_at,
            value_len,
            height,
        )
    }
}

/// Whether the image is sound.
pub fn check(image: &[u8]) -> bool {
    unsafe { ffi::bavo_check(image.as_ptr(), image.len()) }
}

/// Whether an entry of this key, number and type is held.
pub fn contains(image: &[u8], key: &[u8], number: u64, kind: u8) -> Presence {
    unsafe { ffi::bavo_contains(image.as_ptr(), image.len(), key.as_ptr(), key.len(), number, kind) }
}

/// The newest entry of a key up to a snapshot.
pub fn get(image: &[u8], key: &[u8], snapshot: u64) -> Lookup {
    unsafe { ffi::bavo_get(image.as_ptr(), image.len(), key.as_ptr(), key.len(), snapshot) }
}

/// The value of a found node.
pub fn value(image: &[u8], node: usize) -> View {
    unsafe { ffi::bavo_value(image.as_ptr(), image.len(), node) }
}

/// The refusal that asking for a node's value gets, or 0.
pub fn value_refusal(image: &[u8], node: usize) -> u32 {
    unsafe { ffi::bavo_value_refusal(image.as_ptr(), image.len(), node) }
}

/// The value of a key at a snapshot, in one call; at offset 0 where the key has no row.
pub fn get_value(image: &[u8], key: &[u8], snapshot: u64) -> View {
    unsafe { ffi::bavo_get_value(image.as_ptr(), image.len(), key.as_ptr(), key.len(), snapshot) }
}

/// The first entry.
pub fn entry_first(image: &[u8], at: EntryCursor) -> EntryMoved {
    unsafe { ffi::bavo_entry_first(image.as_ptr(), image.len(), at) }
}

/// The first entry at or after a key and a number in the order.
pub fn entry_seek(image: &[u8], at: EntryCursor, key: &[u8], number: u64) -> EntryMoved {
    let (key_at, key_len) = (key.as_ptr(), key.len());
    unsafe { ffi::bavo_entry_seek(image.as_ptr(), image.len(), at, key_at, key_len, number) }
}

/// The next entry; from nowhere the first.
pub fn entry_next(image: &[u8], at: EntryCursor) -> EntryMoved {
    unsafe { ffi::bavo_entry_next(image.as_ptr(), image.len(), at) }
}

/// The entry before; from nowhere nowhere.
pub fn entry_prev(image: &[u8], at: EntryCursor) -> EntryMoved {
    unsafe { ffi::bavo_entry_prev(image.as_ptr(), image.len(), at) }
}

/// The key at an entry cursor.
pub fn entry_key(image: &[u8], at: EntryCursor) -> View {
    unsafe { ffi::bavo_entry_key(image.as_ptr(), image.len(), at) }
}

/// The value at an entry cursor; a deletion's is empty.
pub fn entry_value(image: &[u8], at: EntryCursor) -> View {
    unsafe { ffi::bavo_entry_value(image.as_ptr(), image.len(), at) }
}

/// The number at an entry cursor; nowhere, and where it is refused, 0.
pub fn entry_number(image: &[u8], at: EntryCursor) -> u64 {
    unsafe { ffi::bavo_entry_number(image.as_ptr(), image.len(), at) }
}

/// The type at an entry cursor; nowhere, and where it is refused, 0.
pub fn entry_kind(image: &[u8], at: EntryCursor) -> u8 {
    unsafe { ffi::bavo_entry_kind(image.as_ptr(), image.len(), at) }
}

/// The refusal that the views at an entry cursor get, or 0.
pub fn entry_refusal(image: &[u8], at: EntryCursor) -> u32 {
    unsafe { ffi::bavo_entry_refusal(image.as_ptr(), image.len(), at) }
}

/// The newest entry of a key up to a snapshot in a pair: the second table is asked only if the first says absent.
pub fn pair_get(first: &[u8], second: &[u8], key: &[u8], snapshot: u64) -> PairLookup {
    let (one, two) = ((first.as_ptr(), first.len()), (second.as_ptr(), second.len()));
    let (key_at, key_len) = (key.as_ptr(), key.len());
    unsafe { ffi::bavo_pair_get(one.0, one.1, two.0, two.1, key_at, key_len, snapshot) }
}

/// The least key with a row.
pub fn first(first: &[u8], second: &[u8], snapshot: u64, at: Cursor) -> Moved {
    let (one, two) = ((first.as_ptr(), first.len()), (second.as_ptr(), second.len()));
    unsafe { ffi::bavo_first(one.0, one.1, two.0, two.1, snapshot, at) }
}

/// The least key with a row, at or above the given one.
pub fn seek(first: &[u8], second: &[u8], snapshot: u64, at: Cursor, key: &[u8]) -> Moved {
    let (one, two) = ((first.as_ptr(), first.len()), (second.as_ptr(), second.len()));
    let (key_at, key_len) = (key.as_ptr(), key.len());
    unsafe { ffi::bavo_seek(one.0, one.1, two.0, two.1, snapshot, at, key_at, key_len) }
}

/// The least key with a row above the cursor's; from nowhere the least of all.
pub fn next(first: &[u8], second: &[u8], snapshot: u64, at: Cursor) -> Moved {
    let (one, two) = ((first.as_ptr(), first.len()), (second.as_ptr(), second.len()));
    unsafe { ffi::bavo_next(one.0, one.1, two.0, two.1, snapshot, at) }
}

/// The greatest key with a row below the cursor's; from nowhere nowhere.
pub fn prev(first: &[u8], second: &[u8], snapshot: u64, at: Cursor) -> Moved {
    let (one, two) = ((first.as_ptr(), first.len()), (second.as_ptr(), second.len()));
    unsafe { ffi::bavo_prev(one.0, one.1, two.0, two.1, snapshot, at) }
}

/// The key of the row at a cursor.
pub fn row_key(first: &[u8], second: &[u8], at: Cursor) -> RowView {
    let (one, two) = ((first.as_ptr(), first.len()), (second.as_ptr(), second.len()));
    unsafe { ffi::bavo_row_key(one.0, one.1, two.0, two.1, at) }
}

/// The value of the row at a cursor; a deletion's is empty.
pub fn row_value(first: &[u8], second: &[u8], at: Cursor) -> RowView {
    let (one, two) = ((first.as_ptr(), first.len()), (second.as_ptr(), second.len()));
    unsafe { ffi::bavo_row_value(one.0, one.1, two.0, two.1, at) }
}

/// The refusal that key and value at a cursor get, or 0.
pub fn row_refusal(first: &[u8], second: &[u8], at: Cursor) -> u32 {
    let (one, two) = ((first.as_ptr(), first.len()), (second.as_ptr(), second.len()));
    unsafe { ffi::bavo_row_refusal(one.0, one.1, two.0, two.1, at) }
}
