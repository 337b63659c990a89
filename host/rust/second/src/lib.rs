//! AES, EME2-AES, XTS-AES, the sheet store and its listing written a second
//! time, from FIPS 197, source document 000, IEEE 1619-2007, 01 and 02 alone, so
//! that the proved library can be compared with something that shares no line
//! with it. It is clear before it is fast.
//!
//! - `numbers`: what is returned in place of a result (01, 02)
//! - `field`: the bytes as a field (FIPS 197, section 4)
//! - `substitution`: the two tables, computed from their rule (5.1.1, 5.3.2)
//! - `schedule`: the round keys (5.2)
//! - `cipher`: one block, both ways (5.1, 5.3)
//! - `block`: sixteen bytes, xored and doubled, as both modes need them
//! - `eme2`: whole messages, both ways (000, Tables 1 and 2)
//! - `xts`: data units, both ways, and single blocks of one (IEEE 1619-2007; 02,
//!   order 3)
//! - `slip`: the errors that a lesson makes in it on purpose (01)
//! - `record`: one slot of the store, its fields and its text (01, the store;
//!   02, order 1)
//! - `store`: check, read, add, revise, remove
//! - `step`: one step of the rekeying job
//! - `takeover`: the text of a unit added as a sheet (02, order 3)
//! - `listing`: what the listing program prints

#![forbid(unsafe_code)]

mod block;
mod cipher;
mod eme2;
mod field;
mod listing;
mod numbers;
pub mod record;
mod schedule;
mod slip;
mod step;
mod store;
mod substitution;
mod takeover;
mod xts;

pub use block::double;
pub use eme2::{eme2, eme2_with, new_masks, wide, MESSAGE};
pub use listing::listing;
pub use numbers::{
    BLOCK_NOT_ALONE, BUFFER_LENGTH, DATA_LENGTH, KEY_LENGTH, LAST_REVISION, MESSAGE_LENGTH,
    NO_FREE_SLOT, NO_SHEET, OTHER_REVISION, SHEET_PRESENT, SHEET_ZERO, SLOT_UNSOUND, STORE_LENGTH,
    TEXT_LENGTH, UNIT_LENGTH, XTS_KEY_LENGTH,
};
pub use record::Keys;
pub use slip::Slip;
pub use step::{step, Outcome};
pub use store::{add, check, read, remove, revise, Checked, Counts, Found};
pub use substitution::{inv_sub, sub};
pub use takeover::add_xts;
pub use xts::{xts, xts_block, UNIT};

/// One block overwritten with what AES makes of it, deciphered if `back`
/// is true. Returns 0, or the number of the first refusal that applies (01,
/// AES: the key, then the block), and then keeps the block.
pub fn aes(key: &[u8], back: bool, block: &mut [u8]) -> u32 {
    if key.len() != 16 && key.len() != 32 {
        return KEY_LENGTH;
    }
    let Ok(block) = <&mut [u8; 16]>::try_from(block) else {
        return MESSAGE_LENGTH;
    };
    let round_keys = schedule::key_expansion(key);
    *block = if back {
        cipher::inv_cipher(block, &round_keys)
    } else {
        cipher::cipher(block, &round_keys)
    };
    0
}

#[cfg(test)]
mod tests;
