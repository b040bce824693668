use std::fmt;

/// Why a call is refused. A refused call changes no byte, and a refused move keeps its cursor.
#[derive(Clone, Copy, Debug, PartialEq, Eq, Hash)]
#[repr(u32)]
pub enum Refusal {
    /// 1: the slice's length, or a field of the header, is out of its limits.
    BadImage = 1,
    /// 2: the type is above 1. The safe calls cannot get it.
    BadKind = 2,
    /// 3: the number or the snapshot is above [`crate::MAX_NUMBER`].
    BadNumber = 3,
    /// 4: the key is longer than [`crate::MAX_KEY`].
    LongKey = 4,
    /// 5: the value is longer than [`crate::MAX_VALUE`].
    LongValue = 5,
    /// 6: the height is not 1 to 12.
    BadHeight = 6,
    /// 7: the table is full.
    NoRoom = 7,
    /// 8: an entry of this key and number is in this table already.
    Duplicate = 8,
    /// 9: damage was met. Never on a sound image.
    Damaged = 9,
    /// 10: the cursor names no node of its table.
    NoNode = 10,
}

impl Refusal {
    /// All refusals, in the order of their numbers.
    pub const ALL: [Refusal; 10] = [
        Refusal::BadImage,
        Refusal::BadKind,
        Refusal::BadNumber,
        Refusal::LongKey,
        Refusal::LongValue,
        Refusal::BadHeight,
        Refusal::NoRoom,
        Refusal::Duplicate,
        Refusal::Damaged,
        Refusal::NoNode,
    ];

    /// The refusal's number, 1 to 10.
    pub fn code(self) -> u32 {
        self as u32
    }

    /// The refusal of a number; 0 and numbers above 10 are none.
    pub fn from_code(code: u32) -> Option<Refusal> {
        Refusal::ALL.iter().copied().find(|refusal| refusal.code() == code)
    }
}

impl fmt::Display for Refusal {
    fn fmt(&self, f: &mut fmt::Formatter<'_>) -> fmt::Result {
        f.write_str(match self {
            Refusal::BadImage => "the image's length or a field of its header is out of its limits",
            Refusal::BadKind => "the type is neither deletion nor value",
            Refusal::BadNumber => "the number or the snapshot is above 2^56 - 1",
            Refusal::LongKey => "the key is longer than 1,024 bytes",
            Refusal::LongValue => "the value is longer than 4,096 bytes",
            Refusal::BadHeight => "the height is not 1 to 12",
            Refusal::NoRoom => "the table is full",
            Refusal::Duplicate => "the table has an entry of this key and number",
            Refusal::Damaged => "the image is damaged",
            Refusal::NoNode => "the cursor names no node of its table",
        })
    }
}

impl std::error::Error for Refusal {}

// The answer of a call that was not refused. A number that is no refusal's cannot come from the library; it counts as damage.
pub(crate) fn unless_refused<T>(code: u32, answer: T) -> Result<T, Refusal> {
    match code {
        0 => Ok(answer),
        _ => Err(Refusal::from_code(code).unwrap_or(Refusal::Damaged)),
    }
}
