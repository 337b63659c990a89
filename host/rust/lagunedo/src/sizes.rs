//! The sizes of `lagunedo.h`, under its names. `tests/header.rs` holds them to
//! it.

/// The bytes of a block of AES.
pub const BLOCK_SIZE: usize = 16;
/// The bytes of a key of AES-128 alone.
pub const AES_KEY_128: usize = 16;
/// The bytes of a key of AES-256 alone.
pub const AES_KEY_256: usize = 32;
/// The bytes of a key of EME2-AES, and of the store's calls, with AES-128 inside.
pub const EME2_KEY_128: usize = 48;
/// The bytes of a key of EME2-AES, and of the store's calls, with AES-256 inside.
pub const EME2_KEY_256: usize = 64;
/// The bytes of the shortest message.
pub const MESSAGE_LEAST: usize = 16;
/// The bytes of the longest message.
pub const MESSAGE_MOST: usize = 65_536;
/// The bytes of the longest associated data.
pub const DATA_MOST: usize = 1_024;
/// The bytes of a record, which is one slot of a store.
pub const RECORD_SIZE: usize = 2_112;
/// The bytes of a record before its text.
pub const LEAD_SIZE: usize = 16;
/// The bytes of the shortest text of a sheet.
pub const TEXT_LEAST: usize = 16;
/// The bytes of the longest text of a sheet.
pub const TEXT_MOST: usize = 2_096;
/// The slots of the largest store.
pub const SLOT_LIMIT: usize = 1_024;
/// The bytes of a key of XTS-AES with AES-128 inside.
pub const XTS_KEY_128: usize = 32;
/// The bytes of a key of XTS-AES with AES-256 inside.
pub const XTS_KEY_256: usize = 64;
/// The bytes of the shortest unit.
pub const UNIT_LEAST: usize = 16;
/// The bytes of the longest unit.
pub const UNIT_MOST: usize = 65_536;
/// The bytes of stack that a call takes at most.
pub const STACK_MOST: usize = 8_192;
