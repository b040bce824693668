use crate::raw;
use crate::refusal::{unless_refused, Refusal};
use std::iter::FusedIterator;

/// The type of an entry.
#[derive(Clone, Copy, Debug, PartialEq, Eq, Hash)]
#[repr(u8)]
pub enum Kind {
    /// The key is gone from this number on.
    Deletion = 0,
    /// The key has a value from this number on.
    Value = 1,
}

/// An entry of a table.
#[derive(Clone, Copy, Debug, PartialEq, Eq)]
pub struct Entry<'a> {
    /// Its key, a part of the image.
    pub key: &'a [u8],
    /// Its number.
    pub number: u64,
    /// Its type.
    pub kind: Kind,
    /// Its value, a part of the image; empty for a deletion.
    pub value: &'a [u8],
}

/// A cursor over all entries of one table, in their order, deletions included. It is nowhere, or on an entry. A scan ends, whatever
/// the bytes: next leads to a later entry of the order, prev to an earlier one, or nowhere, or is refused.
///
/// ```
/// use bavolinesk::{Kind, Table};
///
/// let mut memory = [0u8; 256];
/// let mut table = Table::fresh(&mut memory)?;
/// table.put(b"a", 1, b"x")?;
/// table.delete(b"a", 3)?;
/// let mut cursor = table.entry_cursor();
/// assert!(cursor.first()?);
/// assert_eq!(cursor.current()?.map(|entry| (entry.number, entry.kind)), Some((3, Kind::Deletion)));
/// assert!(cursor.next()?);
/// assert_eq!(cursor.current()?.map(|entry| entry.value), Some(&b"x"[..]));
/// assert!(cursor.seek(b"a", 2)?);
/// assert_eq!(cursor.current()?.map(|entry| entry.number), Some(1));
/// assert!(cursor.prev()?);
/// assert!(!cursor.prev()?);
/// # Ok::<(), bavolinesk::Refusal>(())
/// ```
#[derive(Clone, Copy, Debug)]
pub struct EntryCursor<'a> {
    image: &'a [u8],
    at: raw::EntryCursor,
}

impl<'a> EntryCursor<'a> {
    pub(crate) fn new(image: &'a [u8]) -> EntryCursor<'a> {
        let at = raw::EntryCursor::NOWHERE;
        EntryCursor { image, at }
    }

    // Every move answers whether the cursor is on an entry afterwards; a refused one leaves it where it was.
    fn moved(&mut self, moved: raw::EntryMoved) -> Result<bool, Refusal> {
        unless_refused(moved.refusal, ())?;
        self.at = moved.cursor();
        Ok(self.is_on())
    }

    /// To the first entry. Answers, as every move does, whether the cursor is on an entry now.
    pub fn first(&mut self) -> Result<bool, Refusal> {
        self.moved(raw::entry_first(self.image, self.at))
    }

    /// To the first entry at or after a key and a number in the order.
    pub fn seek(&mut self, key: &[u8], number: u64) -> Result<bool, Refusal> {
        self.moved(raw::entry_seek(self.image, self.at, key, number))
    }

    /// To the next entry; from nowhere to the first, from the last to nowhere.
    #[allow(clippy::should_implement_trait)]
    pub fn next(&mut self) -> Result<bool, Refusal> {
        self.moved(raw::entry_next(self.image, self.at))
    }

    /// To the entry before; from nowhere and from the first to nowhere.
    pub fn prev(&mut self) -> Result<bool, Refusal> {
        self.moved(raw::entry_prev(self.image, self.at))
    }

    /// Whether the cursor is on an entry.
    pub fn is_on(&self) -> bool {
        self.at.on == 1
    }

    /// The number of the node that the cursor is on.
    pub fn node(&self) -> Option<usize> {
        self.is_on().then_some(self.at.node)
    }

    /// The entry that the cursor is on, none when nowhere.
    pub fn current(&self) -> Result<Option<Entry<'a>>, Refusal> {
        unless_refused(raw::entry_refusal(self.image, self.at), ())?;
        if !self.is_on() {
            return Ok(None);
        }
        let kind = match raw::entry_kind(self.image, self.at) {
            0 => Kind::Deletion,
            _ => Kind::Value,
        };
        Ok(Some(Entry {
            key: raw::entry_key(self.image, self.at).of(self.image),
            number: raw::entry_number(self.image, self.at),
            kind,
            value: raw::entry_value(self.image, self.at).of(self.image),
        }))
    }
}

/// The entries of a table in their order. A scan ends, whatever the bytes: a refusal is given once, and after it nothing.
#[derive(Clone, Debug)]
pub struct Entries<'a> {
    cursor: EntryCursor<'a>,
    done: bool,
}

impl<'a> Entries<'a> {
    pub(crate) fn new(cursor: EntryCursor<'a>) -> Entries<'a> {
        Entries { cursor, done: false }
    }
}

impl<'a> Iterator for Entries<'a> {
    type Item = Result<Entry<'a>, Refusal>;

    fn next(&mut self) -> Option<Self::Item> {
        if self.done {
            return None;
        }
        let entry = self.cursor.next().and_then(|_| self.cursor.current());
        self.done = !matches!(entry, Ok(Some(_)));
        entry.transpose()
    }
}

impl FusedIterator for Entries<'_> {}
