//! The numbers of 01, "Numbers returned in place of a result", and of 02, under
//! the names of `lagunedo.h` and with its words. `tests/header.rs` holds them to
//! its table.

use std::error::Error;
use std::fmt;

/// Makes the enum and the two tables from one row a refusal.
macro_rules! refusals {
    ($($name:ident = $number:literal, $meaning:literal, $doc:literal;)*) => {
        /// Why a call did nothing, by its number in 01 or 02.
        #[derive(Clone, Copy, Debug, Eq, Hash, PartialEq)]
        #[repr(u32)]
        pub enum Refusal {
            $(#[doc = $doc] $name = $number,)*
        }

        impl Refusal {
            /// All of them, in the order of their numbers.
            pub const ALL: &'static [Self] = &[$(Self::$name),*];

            /// What it means, in the words of `lagunedo_meaning`.
            #[must_use]
            pub const fn meaning(self) -> &'static str {
                match self {
                    $(Self::$name => $meaning,)*
                }
            }

            /// The refusal with a number, if one has it.
            #[must_use]
            pub const fn from_number(number: u32) -> Option<Self> {
                match number {
                    $($number => Some(Self::$name),)*
                    _ => None,
                }
            }
        }
    };
}

refusals! {
    KeyLength = 1, "a key is not 48 or 64 bytes long (AES alone: 16 or 32)",
        "A key given has a length that the call does not take.";
    MessageLength = 2, "a message is below 16 or above 65,536 bytes (AES alone: not 16)",
        "The message (for AES alone: the block) has a length that the call does not take.";
    DataLength = 3, "associated data is above 1,024 bytes",
        "The associated data is longer than [`DATA_MOST`](crate::DATA_MOST).";
    StoreLength = 4, "the store is not a whole number of records, or over 1,024",
        "The store is not a whole number of records, or has more than [`SLOT_LIMIT`](crate::SLOT_LIMIT).";
    SheetZero = 5, "sheet number 0 was asked for",
        "Sheet number 0 was asked for, which means a free slot.";
    TextLength = 6, "the text is below 16 or above 2,096 bytes",
        "The text is shorter than [`TEXT_LEAST`](crate::TEXT_LEAST) or longer than [`TEXT_MOST`](crate::TEXT_MOST).";
    NoSheet = 7, "no slot has the sheet number",
        "No slot has the sheet number.";
    OtherRevision = 8, "the revision named is not the stored one",
        "The revision named is not the stored one, as it is if the sheet was revised since the operator read it.";
    LastRevision = 9, "the stored revision is 4,294,967,295, the last",
        "The stored revision is 4,294,967,295, so there is none after it.";
    NoFreeSlot = 10, "no slot is free: none has sheet number 0",
        "No slot is free.";
    SheetPresent = 11, "the sheet number is already in a slot",
        "The sheet number is already in a slot.";
    SlotUnsound = 12, "the slot found is unsound",
        "The slot found is unsound. It can still be removed.";
    BufferLength = 13, "the buffer is shorter than the text",
        "The lent buffer is shorter than the text.";
    LengthChanged = 14, "the text length changed in deciphering",
        "The text length changed in deciphering. The number has its place in 01's table, and no call returns it.";
    XtsKeyLength = 15, "an XTS key is not 32 or 64 bytes long",
        "The XTS key is neither [`XTS_KEY_128`](crate::XTS_KEY_128) nor [`XTS_KEY_256`](crate::XTS_KEY_256) bytes long.";
    UnitLength = 16, "a unit is below 16 or above 65,536 bytes",
        "The unit is shorter than [`UNIT_LEAST`](crate::UNIT_LEAST) or longer than [`UNIT_MOST`](crate::UNIT_MOST).";
    BlockNotAlone = 17, "the block cannot be read alone: past the end, or tied to odd bytes",
        "The unit has no block of that number, or it was enciphered together with the odd bytes at the unit's end.";
}

impl Refusal {
    /// The number in 01 or 02.
    #[must_use]
    pub const fn number(self) -> u32 {
        self as u32
    }
}

impl fmt::Display for Refusal {
    fn fmt(&self, f: &mut fmt::Formatter<'_>) -> fmt::Result {
        write!(f, "refused with {}: {}", self.number(), self.meaning())
    }
}

impl Error for Refusal {}

/// What a number returned by the library means: 0 is the work done. There is
/// no other but [`FAULT`](crate::FAULT), which check takes itself.
pub fn answer(number: u32) -> Result<(), Refusal> {
    match (number, Refusal::from_number(number)) {
        (0, _) => Ok(()),
        (_, Some(refusal)) => Err(refusal),
        (_, None) => unreachable!("number {number}"),
    }
}
