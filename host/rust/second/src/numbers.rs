//! 01, "Numbers returned in place of a result", and those of 02, under the names
//! of `lagunedo.h`. Number 14 is never returned: deciphering keeps the length of
//! a text.

/// 01: a key given is not 48 or 64 bytes (AES alone: 16 or 32).
pub const KEY_LENGTH: u32 = 1;
/// 01: the message is below 16 or above 65,536 bytes (AES alone: the block is
/// not 16).
pub const MESSAGE_LENGTH: u32 = 2;
/// 01: the associated data is above 1,024 bytes.
pub const DATA_LENGTH: u32 = 3;
/// 01: the store is not a whole number of records, or over 1,024.
pub const STORE_LENGTH: u32 = 4;
/// 01: sheet number 0 asked for.
pub const SHEET_ZERO: u32 = 5;
/// 01: the text is below 16 or above 2,096 bytes.
pub const TEXT_LENGTH: u32 = 6;
/// 01: no slot has the sheet number.
pub const NO_SHEET: u32 = 7;
/// 01: the revision named is not the stored one.
pub const OTHER_REVISION: u32 = 8;
/// 02, order 1: the stored revision is 4,294,967,295.
pub const LAST_REVISION: u32 = 9;
/// 01: no slot has sheet number 0.
pub const NO_FREE_SLOT: u32 = 10;
/// 01: the sheet number is already in a slot.
pub const SHEET_PRESENT: u32 = 11;
/// 01: the slot found is unsound.
pub const SLOT_UNSOUND: u32 = 12;
/// 01: the lent buffer is shorter than the text.
pub const BUFFER_LENGTH: u32 = 13;
/// 02, order 3: the XTS key is not 32 or 64 bytes.
pub const XTS_KEY_LENGTH: u32 = 15;
/// 02, order 3: the unit is below 16 or above 65,536 bytes.
pub const UNIT_LENGTH: u32 = 16;
/// 02, order 3: the block can't be read alone.
pub const BLOCK_NOT_ALONE: u32 = 17;
