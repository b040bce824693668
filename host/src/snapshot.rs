use crate::raw;
use crate::refusal::{unless_refused, Refusal};
use crate::table::Table;
use std::iter::FusedIterator;

// A fresh image of 64 bytes, which stands in for the second table where there is none.
static NO_TABLE: [u8; 64] = {
    let mut image = [0u8; 64];
    image[0] = 64;
    image[8] = 64;
    image[12] = 12;
    image
};

/// One table, or two, read as of a number: the entries numbered up to it, and none of the later ones.
///
/// Two tables are read as one. A cursor takes, of each key, the entry with the highest number up to the snapshot, wherever it is,
/// and the first table's in a tie. [`Snapshot::get`] asks the second table only if the first has no entry of the key, so it takes
/// the first table to be the newer, as LevelDB does.
///
/// ```
/// use bavolinesk::{Snapshot, Table};
///
/// let (mut old, mut new) = ([0u8; 256], [0u8; 256]);
/// let mut older = Table::fresh(&mut old)?;
/// let mut newer = Table::fresh(&mut new)?;
/// older.put(b"a", 1, b"x")?;
/// older.put(b"b", 2, b"y")?;
/// newer.delete(b"b", 3)?;
/// newer.put(b"c", 4, b"z")?;
///
/// let snapshot = Snapshot::over(&newer, &older, 4);
/// let mut shown = Vec::new();
/// for row in snapshot.rows() {
///     shown.push(row?.key);
/// }
/// assert_eq!(shown, [b"a", b"c"]);
/// assert_eq!(snapshot.get(b"b")?, None);
/// # Ok::<(), bavolinesk::Refusal>(())
/// ```
#[derive(Clone, Copy, Debug)]
pub struct Snapshot<'a> {
    first: &'a [u8],
    second: &'a [u8],
    number: u64,
}

impl<'a> Snapshot<'a> {
    /// One table as of a number. A number above [`crate::MAX_NUMBER`] is refused by each call.
    pub fn of(table: &'a Table<'_>, number: u64) -> Snapshot<'a> {
        Snapshot::of_images(table.bytes(), &NO_TABLE, number)
    }

    /// Two tables as of a number, the first the newer.
    pub fn over(first: &'a Table<'_>, second: &'a Table<'_>, number: u64) -> Snapshot<'a> {
        Snapshot::of_images(first.bytes(), second.bytes(), number)
    }

    /// Two images of any bytes as of a number; each call refuses what it cannot read.
    pub fn of_images(first: &'a [u8], second: &'a [u8], number: u64) -> Snapshot<'a> {
        Snapshot { first, second, number }
    }

    /// The number.
    pub fn number(&self) -> u64 {
        self.number
    }

    /// The value of a key; none if it has no entry up to the number, or was deleted.
    pub fn get(&self, key: &[u8]) -> Result<Option<&'a [u8]>, Refusal> {
        let found = raw::pair_get(self.first, self.second, key, self.number);
        unless_refused(found.refusal, ())?;
        if found.answer != 1 {
            return Ok(None);
        }
        let image = if found.table == 1 { self.first } else { self.second };
        let view = raw::value(image, found.node);
        unless_refused(view.refusal, Some(view.of(image)))
    }

    /// A cursor that is nowhere.
    pub fn cursor(&self) -> Cursor<'a> {
        self.cursor_at(Place::NOWHERE)
    }

    /// A cursor at a place that was kept: it still shows the same entry, whatever was added since.
    ///
    /// ```
    /// use bavolinesk::{Snapshot, Table};
    ///
    /// let mut memory = [0u8; 256];
    /// let mut table = Table::fresh(&mut memory)?;
    /// table.put(b"a", 1, b"x")?;
    /// table.put(b"c", 2, b"z")?;
    /// let mut cursor = Snapshot::of(&table, 9).cursor();
    /// cursor.first()?;
    /// let place = cursor.place();
    /// table.put(b"b", 3, b"y")?;
    /// let mut cursor = Snapshot::of(&table, 9).cursor_at(place);
    /// assert_eq!(cursor.current()?.map(|row| row.key), Some(&b"a"[..]));
    /// cursor.next()?;
    /// assert_eq!(cursor.current()?.map(|row| row.key), Some(&b"b"[..]));
    /// # Ok::<(), bavolinesk::Refusal>(())
    /// ```
    pub fn cursor_at(&self, place: Place) -> Cursor<'a> {
        Cursor {
            snapshot: *self,
            at: place.0,
        }
    }

    /// The rows, keys ascending.
    pub fn rows(&self) -> Rows<'a> {
        Rows::new(self.cursor(), Start::First, Cursor::next)
    }

    /// The rows from a key on, keys ascending.
    pub fn rows_from(&self, key: &[u8]) -> Rows<'a> {
        Rows::new(self.cursor(), Start::Seek(key.to_vec()), Cursor::next)
    }

    /// The rows, keys descending. The last row is found by [`Cursor::last`].
    pub fn rows_back(&self) -> Rows<'a> {
        Rows::new(self.cursor(), Start::Last, Cursor::prev)
    }

    /// The rows with keys below the given one, keys descending.
    pub fn rows_below(&self, key: &[u8]) -> Rows<'a> {
        Rows::new(self.cursor(), Start::Below(key.to_vec()), Cursor::prev)
    }
}

/// Where a cursor is; it can be kept while the tables are added to.
#[derive(Clone, Copy, Debug, PartialEq, Eq)]
pub struct Place(raw::Cursor);

impl Place {
    /// On no row.
    pub const NOWHERE: Place = Place(raw::Cursor::NOWHERE);
}

/// A row: a key that has a value at the snapshot. Both are parts of the image that holds the entry.
#[derive(Clone, Copy, Debug, PartialEq, Eq)]
pub struct Row<'a> {
    /// The key.
    pub key: &'a [u8],
    /// Its value.
    pub value: &'a [u8],
}

/// A cursor over the rows of a snapshot. It is nowhere, or on a row; every move answers whether it is on a row now, and a refused
/// move leaves it where it was. A scan ends, whatever the bytes: next leads to a greater key, prev to a smaller one, or nowhere, or
/// is refused.
#[derive(Clone, Copy, Debug)]
pub struct Cursor<'a> {
    snapshot: Snapshot<'a>,
    at: raw::Cursor,
}

impl<'a> Cursor<'a> {
    fn moved(&mut self, moved: raw::Moved) -> Result<bool, Refusal> {
        unless_refused(moved.refusal, ())?;
        self.at = moved.cursor();
        Ok(self.is_on())
    }

    /// To the row with the least key.
    pub fn first(&mut self) -> Result<bool, Refusal> {
        let s = self.snapshot;
        self.moved(raw::first(s.first, s.second, s.number, self.at))
    }

    /// To the row with the least key at or above the given one.
    pub fn seek(&mut self, key: &[u8]) -> Result<bool, Refusal> {
        let s = self.snapshot;
        self.moved(raw::seek(s.first, s.second, s.number, self.at, key))
    }

    /// To the row with the least key above the cursor's; from nowhere to the first.
    #[allow(clippy::should_implement_trait)]
    pub fn next(&mut self) -> Result<bool, Refusal> {
        let s = self.snapshot;
        self.moved(raw::next(s.first, s.second, s.number, self.at))
    }

    /// To the row with the greatest key below the cursor's; from nowhere nowhere.
    pub fn prev(&mut self) -> Result<bool, Refusal> {
        let s = self.snapshot;
        self.moved(raw::prev(s.first, s.second, s.number, self.at))
    }

    /// To the row with the greatest key. The library has no such move: this one goes on by [`Cursor::next`] from where the cursor
    /// is, so it takes as many moves as there are rows above. It returns, whatever the bytes: each `next` leads to a greater key.
    pub fn last(&mut self) -> Result<bool, Refusal> {
        let (mut ahead, mut last) = (*self, self.at);
        while ahead.next()? {
            last = ahead.at;
        }
        self.at = last;
        Ok(self.is_on())
    }

    /// Whether the cursor is on a row.
    pub fn is_on(&self) -> bool {
        self.at.table != 0
    }

    /// Where the cursor is.
    pub fn place(&self) -> Place {
        Place(self.at)
    }

    /// The row that the cursor is on, none when nowhere.
    pub fn current(&self) -> Result<Option<Row<'a>>, Refusal> {
        let Snapshot { first, second, .. } = self.snapshot;
        let key = raw::row_key(first, second, self.at);
        unless_refused(key.refusal, ())?;
        if !self.is_on() {
            return Ok(None);
        }
        let value = raw::row_value(first, second, self.at);
        unless_refused(value.refusal, ())?;
        Ok(Some(Row {
            key: key.of(first, second),
            value: value.of(first, second),
        }))
    }
}

#[derive(Clone, Debug)]
enum Start {
    First,
    Last,
    Seek(Vec<u8>),
    Below(Vec<u8>),
    Begun,
}

type Move<'a> = fn(&mut Cursor<'a>) -> Result<bool, Refusal>;

/// The rows of a snapshot, one way. A scan ends, whatever the bytes: a refusal is given once, and after it nothing.
#[derive(Clone, Debug)]
pub struct Rows<'a> {
    cursor: Cursor<'a>,
    start: Start,
    step: Move<'a>,
    done: bool,
}

impl<'a> Rows<'a> {
    fn new(cursor: Cursor<'a>, start: Start, step: Move<'a>) -> Rows<'a> {
        let done = false;
        Rows {
            cursor,
            start,
            step,
            done,
        }
    }

    fn advance(&mut self) -> Result<bool, Refusal> {
        match std::mem::replace(&mut self.start, Start::Begun) {
            Start::First => self.cursor.first(),
            Start::Last => self.cursor.last(),
            Start::Seek(key) => self.cursor.seek(&key),
            Start::Below(key) => match self.cursor.seek(&key)? {
                true => self.cursor.prev(),
                false => self.cursor.last(),
            },
            Start::Begun => (self.step)(&mut self.cursor),
        }
    }
}

impl<'a> Iterator for Rows<'a> {
    type Item = Result<Row<'a>, Refusal>;

    fn next(&mut self) -> Option<Self::Item> {
        if self.done {
            return None;
        }
        let row = self.advance().and_then(|_| self.cursor.current());
        self.done = !matches!(row, Ok(Some(_)));
        row.transpose()
    }
}

impl FusedIterator for Rows<'_> {}
