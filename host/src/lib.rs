//! An in-memory snapshot table: LevelDB's memtable and snapshot cursor over lent memory, in a library that is proved to return
//! on any bytes, to change nothing where it refuses, and to show what LevelDB's order and snapshot rule say on an undamaged table.
//!
//! A [`Table`] lives in a slice that the caller lends: no heap, no pointers, only node numbers. A [`Snapshot`] reads one table, or
//! two merged, as of a number.
//!
//! ```
//! use bavolinesk::{Snapshot, Table};
//!
//! let mut memory = [0u8; 512];
//! let mut table = Table::fresh(&mut memory)?;
//! table.put(b"card 0", 1, b"10de:2330")?;
//! table.put(b"card 1", 2, b"1002:74a1")?;
//! table.delete(b"card 0", 3)?;
//!
//! let before = Snapshot::of(&table, 2);
//! assert_eq!(before.get(b"card 0")?, Some(&b"10de:2330"[..]));
//!
//! let now = Snapshot::of(&table, 3);
//! assert_eq!(now.get(b"card 0")?, None);
//! let mut cursor = now.cursor();
//! assert!(cursor.seek(b"card 1")?);
//! assert!(!cursor.prev()?); // the deleted card does not show, downward neither
//! # Ok::<(), bavolinesk::Refusal>(())
//! ```

#![warn(missing_docs)]

mod entries;
#[doc(hidden)]
#[allow(missing_docs)]
pub mod ffi;
mod refusal;
mod snapshot;
mod table;

pub mod raw;

pub use entries::{Entries, Entry, EntryCursor, Kind};
pub use refusal::Refusal;
pub use snapshot::{Cursor, Place, Row, Rows, Snapshot};
pub use table::{height_for, Lookup, Table};

/// The least number of bytes of an image.
pub const MIN_IMAGE: usize = 64;
/// The most bytes of an image.
pub const MAX_IMAGE: usize = 65_536;
/// The most nodes of an image.
pub const MAX_NODES: usize = 4_096;
/// The greatest height of a node.
pub const MAX_HEIGHT: usize = 12;
/// The most bytes of a key.
pub const MAX_KEY: usize = 1_024;
/// The most bytes of a value.
pub const MAX_VALUE: usize = 4_096;
/// The greatest number of an entry, and the greatest snapshot.
pub const MAX_NUMBER: u64 = (1 << 56) - 1;
