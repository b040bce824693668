//! The C interface of the library, as include/bavolinesk.h has it. A slice is a pointer and a length.

/// What an addition answers: the new node's number, or a refusal and 0.
#[repr(C)]
#[derive(Clone, Copy, Debug, PartialEq, Eq)]
pub struct Added {
    pub refusal: u32,
    pub node: usize,
}

/// What a lookup answers: 0 absent, 1 found, 2 deleted; the found node; the looks that it took.
#[repr(C)]
#[derive(Clone, Copy, Debug, PartialEq, Eq)]
pub struct Lookup {
    pub refusal: u32,
    pub answer: u32,
    pub node: usize,
    pub looks: usize,
}

/// Whether an entry is held (0 or 1), and the looks that it took to tell.
#[repr(C)]
#[derive(Clone, Copy, Debug, PartialEq, Eq)]
pub struct Presence {
    pub refusal: u32,
    pub held: u32,
    pub looks: usize,
}

/// A part of an image.
#[repr(C)]
#[derive(Clone, Copy, Debug, PartialEq, Eq)]
pub struct View {
    pub refusal: u32,
    pub offset: usize,
    pub length: usize,
}

/// An entry cursor: `on` is 0 nowhere and 1 on a node; any other is refused with 10.
#[repr(C)]
#[derive(Clone, Copy, Debug, PartialEq, Eq)]
pub struct EntryCursor {
    pub on: u32,
    pub node: usize,
}

/// Where an entry cursor was moved to; refused, the cursor as it was handed.
#[repr(C)]
#[derive(Clone, Copy, Debug, PartialEq, Eq)]
pub struct EntryMoved {
    pub refusal: u32,
    pub on: u32,
    pub node: usize,
}

/// What a lookup in a pair answers; `table` is 1 or 2 for a found node, else 0.
#[repr(C)]
#[derive(Clone, Copy, Debug, PartialEq, Eq)]
pub struct PairLookup {
    pub refusal: u32,
    pub answer: u32,
    pub table: u32,
    pub node: usize,
    pub looks: usize,
}

/// A visible cursor: `table` is 0 nowhere, 1 in the first table, 2 in the second; any other is refused with 10.
#[repr(C)]
#[derive(Clone, Copy, Debug, PartialEq, Eq)]
pub struct Cursor {
    pub table: u32,
    pub node: usize,
}

/// Where a visible cursor was moved to; refused, the cursor as it was handed.
#[repr(C)]
#[derive(Clone, Copy, Debug, PartialEq, Eq)]
pub struct Moved {
    pub refusal: u32,
    pub table: u32,
    pub node: usize,
}

/// A part of the first or of the second image.
#[repr(C)]
#[derive(Clone, Copy, Debug, PartialEq, Eq)]
pub struct RowView {
    pub refusal: u32,
    pub table: u32,
    pub offset: usize,
    pub length: usize,
}

#[rustfmt::skip]
extern "C" {
    pub fn bavo_fresh(image: *mut u8, image_len: usize) -> u32;
    pub fn bavo_add(image: *mut u8, image_len: usize, key: *const u8, key_len: usize, number: u64, kind: u8, value: *const u8, value_len: usize, height: usize) -> Added;
    pub fn bavo_check(image: *const u8, image_len: usize) -> bool;
    pub fn bavo_contains(image: *const u8, image_len: usize, key: *const u8, key_len: usize, number: u64, kind: u8) -> Presence;
    pub fn bavo_get(image: *const u8, image_len: usize, key: *const u8, key_len: usize, snapshot: u64) -> Lookup;
    pub fn bavo_value(image: *const u8, image_len: usize, node: usize) -> View;
    pub fn bavo_value_refusal(image: *const u8, image_len: usize, node: usize) -> u32;
    pub fn bavo_get_value(image: *const u8, image_len: usize, key: *const u8, key_len: usize, snapshot: u64) -> View;

    pub fn bavo_entry_first(image: *const u8, image_len: usize, at: EntryCursor) -> EntryMoved;
    pub fn bavo_entry_seek(image: *const u8, image_len: usize, at: EntryCursor, key: *const u8, key_len: usize, number: u64) -> EntryMoved;
    pub fn bavo_entry_next(image: *const u8, image_len: usize, at: EntryCursor) -> EntryMoved;
    pub fn bavo_entry_prev(image: *const u8, image_len: usize, at: EntryCursor) -> EntryMoved;
    pub fn bavo_entry_key(image: *const u8, image_len: usize, at: EntryCursor) -> View;
    pub fn bavo_entry_value(image: *const u8, image_len: usize, at: EntryCursor) -> View;
    pub fn bavo_entry_number(image: *const u8, image_len: usize, at: EntryCursor) -> u64;
    pub fn bavo_entry_kind(image: *const u8, image_len: usize, at: EntryCursor) -> u8;
    pub fn bavo_entry_refusal(image: *const u8, image_len: usize, at: EntryCursor) -> u32;

    pub fn bavo_pair_get(first: *const u8, first_len: usize, second: *const u8, second_len: usize, key: *const u8, key_len: usize, snapshot: u64) -> PairLookup;
    pub fn bavo_first(first: *const u8, first_len: usize, second: *const u8, second_len: usize, snapshot: u64, at: Cursor) -> Moved;
    pub fn bavo_seek(first: *const u8, first_len: usize, second: *const u8, second_len: usize, snapshot: u64, at: Cursor, key: *const u8, key_len: usize) -> Moved;
    pub fn bavo_next(first: *const u8, first_len: usize, second: *const u8, second_len: usize, snapshot: u64, at: Cursor) -> Moved;
    pub fn bavo_prev(first: *const u8, first_len: usize, second: *const u8, second_len: usize, snapshot: u64, at: Cursor) -> Moved;
    pub fn bavo_row_key(first: *const u8, first_len: usize, second: *const u8, second_len: usize, at: Cursor) -> RowView;
    pub fn bavo_row_value(first: *const u8, first_len: usize, second: *const u8, second_len: usize, at: Cursor) -> RowView;
    pub fn bavo_row_refusal(first: *const u8, first_len: usize, second: *const u8, second_len: usize, at: Cursor) -> u32;
}
