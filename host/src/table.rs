use crate::entries::{Entries, EntryCursor, Kind};
use crate::raw;
use crate::refusal::{unless_refused, Refusal};
use crate::MAX_HEIGHT;

/// What a lookup in one table says, with the looks that it took: links examined, at most the table's count plus twelve.
#[derive(Clone, Copy, Debug, PartialEq, Eq)]
pub enum Lookup<'a> {
    /// The newest entry up to the snapshot is a value.
    Found {
        /// The node that holds it.
        node: usize,
        /// Its value, a part of the image.
        value: &'a [u8],
        /// Links examined.
        looks: usize,
    },
    /// The newest entry up to the snapshot is a deletion.
    Deleted {
        /// Links examined.
        looks: usize,
    },
    /// There is no entry of the key up to the snapshot.
    Absent {
        /// Links examined.
        looks: usize,
    },
}

/// A table in lent memory.
///
/// Every entry has a number, which the caller chooses, usually one higher for each change. A key may have many entries; readers
/// see the one with the highest number up to their snapshot.
///
/// ```
/// use bavolinesk::{Kind, Refusal, Table};
///
/// let mut memory = [0u8; 256];
/// let mut table = Table::fresh(&mut memory)?;
/// assert_eq!(table.add(b"fan", 1, Kind::Value, b"on", 1)?, 1);
/// assert_eq!(table.add(b"fan", 1, Kind::Deletion, b"", 1), Err(Refusal::Duplicate));
/// assert_eq!(table.get(b"fan", 1)?, Some(&b"on"[..]));
/// assert_eq!(table.get(b"fan", 0)?, None);
/// assert!(table.contains(b"fan", 1, Kind::Value)?);
/// assert!(table.check());
/// # Ok::<(), Refusal>(())
/// ```
#[derive(Debug)]
pub struct Table<'m> {
    image: &'m mut [u8],
}

impl<'m> Table<'m> {
    /// Makes an empty table of any bytes of a legal length, 64 to 65,536. Only its 64 header bytes are written.
    ///
    /// Refusal [`Refusal::BadImage`].
    pub fn fresh(image: &'m mut [u8]) -> Result<Table<'m>, Refusal> {
        unless_refused(raw::fresh(image), ())?;
        Ok(Table { image })
    }

    /// Takes up a table that was made before, after checking it whole.
    ///
    /// Refusals [`Refusal::BadImage`] for a bad header, [`Refusal::Damaged`] for any other damage.
    ///
    /// ```
    /// use bavolinesk::{Refusal, Table};
    ///
    /// let mut memory = [0u8; 128];
    /// Table::fresh(&mut memory)?.put(b"a", 1, b"x")?;
    /// assert_eq!(Table::open(&mut memory)?.len(), 1);
    /// memory[16] = 77; // the head's lowest link
    /// assert_eq!(Table::open(&mut memory).err(), Some(Refusal::Damaged));
    /// memory[0] = 0; // the length in the header
    /// assert_eq!(Table::open(&mut memory).err(), Some(Refusal::BadImage));
    /// # Ok::<(), Refusal>(())
    /// ```
    pub fn open(image: &'m mut [u8]) -> Result<Table<'m>, Refusal> {
        if raw::check(image) {
            return Ok(Table { image });
        }
        unless_refused(raw::entry_refusal(image, raw::EntryCursor::NOWHERE), ())?;
        Err(Refusal::Damaged)
    }

    /// Adds an entry in a node of the given height, 1 to 12, and answers the node's number. The height changes no answer, only
    /// how many looks a search takes.
    ///
    /// Refusals [`Refusal::BadNumber`], [`Refusal::LongKey`], [`Refusal::LongValue`], [`Refusal::BadHeight`],
    /// [`Refusal::Duplicate`], [`Refusal::NoRoom`], in this order; and [`Refusal::BadImage`] and [`Refusal::Damaged`] if the memory
    /// was overwritten since.
    pub fn add(&mut self, key: &[u8], number: u64, kind: Kind, value: &[u8], height: usize) -> Result<usize, Refusal> {
        let added = raw::add(self.image, key, number, kind as u8, value, height);
        unless_refused(added.refusal, added.node)
    }

    /// Adds a value, at a height drawn by [`height_for`].
    pub fn put(&mut self, key: &[u8], number: u64, value: &[u8]) -> Result<usize, Refusal> {
        self.add(key, number, Kind::Value, value, height_for(key, number))
    }

    /// Adds a deletion, at a height drawn by [`height_for`].
    pub fn delete(&mut self, key: &[u8], number: u64) -> Result<usize, Refusal> {
        self.add(key, number, Kind::Deletion, &[], height_for(key, number))
    }

    /// Whether the image is sound, which it stays unless something else writes to the memory.
    pub fn check(&self) -> bool {
        raw::check(self.image)
    }

    /// Whether an entry of this key, number and type is held.
    pub fn contains(&self, key: &[u8], number: u64, kind: Kind) -> Result<bool, Refusal> {
        let presence = raw::contains(self.image, key, number, kind as u8);
        unless_refused(presence.refusal, presence.held == 1)
    }

    /// The value of a key at a snapshot; none if it has no entry up to it, or was deleted.
    pub fn get(&self, key: &[u8], snapshot: u64) -> Result<Option<&[u8]>, Refusal> {
        let view = raw::get_value(self.image, key, snapshot);
        unless_refused(view.refusal, (view.offset != 0).then(|| view.of(self.image)))
    }

    /// What the newest entry of a key up to a snapshot says, with the looks that it took.
    ///
    /// ```
    /// use bavolinesk::{Lookup, Table};
    ///
    /// let mut memory = [0u8; 64];
    /// let table = Table::fresh(&mut memory)?;
    /// assert_eq!(table.lookup(b"any", 0)?, Lookup::Absent { looks: 12 });
    /// # Ok::<(), bavolinesk::Refusal>(())
    /// ```
    pub fn lookup(&self, key: &[u8], snapshot: u64) -> Result<Lookup<'_>, Refusal> {
        let found = raw::get(self.image, key, snapshot);
        unless_refused(found.refusal, ())?;
        let looks = found.looks;
        Ok(match found.answer {
            1 => {
                let node = found.node;
                let view = raw::value(self.image, node);
                unless_refused(view.refusal, ())?;
                let value = view.of(self.image);
                Lookup::Found { node, value, looks }
            }
            2 => Lookup::Deleted { looks },
            _ => Lookup::Absent { looks },
        })
    }

    /// A cursor over all entries, deletions included; it starts nowhere.
    pub fn entry_cursor(&self) -> EntryCursor<'_> {
        EntryCursor::new(self.image)
    }

    /// All entries in their order: keys ascending, numbers of a key descending.
    pub fn entries(&self) -> Entries<'_> {
        Entries::new(self.entry_cursor())
    }

    /// How many entries the header says that there are.
    pub fn len(&self) -> usize {
        self.word(4)
    }

    /// Whether there is no entry.
    pub fn is_empty(&self) -> bool {
        self.len() == 0
    }

    /// How many bytes are free for further nodes and their slots.
    pub fn room(&self) -> usize {
        let taken = self.word(8).saturating_add(4 * self.len());
        self.image.len().saturating_sub(taken)
    }

    /// The image.
    pub fn bytes(&self) -> &[u8] {
        self.image
    }

    /// Gives the memory back.
    pub fn into_bytes(self) -> &'m mut [u8] {
        self.image
    }

    fn word(&self, at: usize) -> usize {
        let bytes = self.image.get(at..at + 4).and_then(|bytes| bytes.try_into().ok());
        bytes.map_or(0, |bytes| u32::from_le_bytes(bytes) as usize)
    }
}

/// A height for a new node: 1, and one more with a chance of one in four each, up to 12, as LevelDB draws them. It is drawn from
/// the key and the number, so equal runs make equal images.
///
/// ```
/// let height = bavolinesk::height_for(b"card 0", 1);
/// assert!((1..=12).contains(&height));
/// ```
pub fn height_for(key: &[u8], number: u64) -> usize {
    let mut x = number ^ 0x9e37_79b9_7f4a_7c15;
    for &byte in key {
        x = (x ^ u64::from(byte)).wrapping_mul(0x0000_0100_0000_01b3);
    }
    x = (x ^ (x >> 30)).wrapping_mul(0xbf58_476d_1ce4_e5b9);
    x = (x ^ (x >> 27)).wrapping_mul(0x94d0_49bb_1331_11eb);
    x ^= x >> 31;
    let steps = (x.trailing_zeros() / 2) as usize;
    (1 + steps).min(MAX_HEIGHT)
}
