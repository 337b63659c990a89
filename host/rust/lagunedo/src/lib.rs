//! The proved library's calls as safe functions. `host/include/lagunedo.h` is
//! their manual; this crate adds nothing to them but Rust's types.
//!
//! - [`aes_encipher`], [`aes_decipher`]: one block
//! - [`eme2_encipher`], [`eme2_decipher`]: a whole message
//! - [`check`], [`read`], [`add`], [`revise`], [`remove`]: a store of sheets
//! - [`step`], [`job_step`]: its rekeying
//! - [`xts_encipher`], [`xts_decipher`], [`xts_block`], [`add_xts`]: sheets under
//!   XTS-AES, to be taken over
//! - [`raw`]: all of them as C has them
//! - [`Refusal`]: why a call did nothing; [`RECORD_SIZE`] and the other sizes
//!
//! A store is bytes that the caller lends; all zeros is one whose slots are
//! free. This is the run that a retried job once spoiled, as it goes here:
//!
//! ```
//! use lagunedo::{add, check, read, revise, Checked, Refusal};
//!
//! let (old, new) = ([1; 48], [2; 64]);
//! let mut store = vec![0; 2 * lagunedo::RECORD_SIZE];
//! assert_eq!(add(&old, &new, &mut store, 305, b"PRESS 4 HOLD 5AM"), Ok(1));
//!
//! // The operator reads revision 1 and revises it; the answer gets lost.
//! let mut text = [0; lagunedo::TEXT_MOST];
//! let found = read(&old, &new, &store, 305, &mut text)?;
//! assert_eq!(&text[..found.length as usize], b"PRESS 4 HOLD 5AM");
//! let better = b"PRESS 2 HOLD 6AM";
//! assert_eq!(revise(&old, &new, &mut store, 305, found.revision, better), Ok(2));
//!
//! // Made again, the same call is refused with 8, and nothing changes.
//! let before = store.clone();
//! let again = revise(&old, &new, &mut store, 305, found.revision, better);
//! assert_eq!(again, Err(Refusal::OtherRevision));
//! assert_eq!(store, before);
//!
//! let Checked::Sound(counts) = check(&store)? else {
//!     panic!("a slot is faulty");
//! };
//! assert_eq!((counts.used, counts.free, counts.new_key), (1, 1, 1));
//! # Ok::<(), Refusal>(())
//! ```

mod job;
pub mod raw;
mod refusal;
mod sizes;
mod store;
mod xts;

pub use job::{job_step, step, Job, Outcome};
use raw::{
    lagunedo_aes_decipher, lagunedo_aes_encipher, lagunedo_eme2_decipher, lagunedo_eme2_encipher,
};
use refusal::answer;
pub use refusal::Refusal;
pub use sizes::*;
pub use store::{add, check, read, remove, revise, Checked, Counts, Found, FAULT};
pub use xts::{add_xts, xts_block, xts_decipher, xts_encipher};

/// Enciphers one block in place with AES-128 (a key of 16 bytes) or AES-256
/// (one of 32).
///
/// ```
/// // FIPS 197, C.1
/// let key: Vec<u8> = (0x00..=0x0f).collect();
/// let mut block: Vec<u8> = (0..16).map(|i| i * 0x11).collect();
/// lagunedo::aes_encipher(&key, &mut block)?;
/// assert_eq!(block[..4], [0x69, 0xc4, 0xe0, 0xd8]);
///
/// let refused = lagunedo::aes_encipher(&key[1..], &mut block);
/// assert_eq!(refused, Err(lagunedo::Refusal::KeyLength));
/// # Ok::<(), lagunedo::Refusal>(())
/// ```
///
/// # Errors
///
/// [`Refusal::KeyLength`] if the key is neither 16 nor 32 bytes, then
/// [`Refusal::MessageLength`] if the block is not 16; the block is then
/// as it was.
pub fn aes_encipher(key: &[u8], block: &mut [u8]) -> Result<(), Refusal> {
    // SAFETY: the call takes slices of any length and requires nothing of
    // them but that they are readable (the block writable too), not null and
    // do not overlap. Rust's slices are never null, and a shared and a
    // mutable borrow never overlap. Nothing is kept after the return.
    let number =
        unsafe { lagunedo_aes_encipher(key.as_ptr(), key.len(), block.as_mut_ptr(), block.len()) };
    answer(number)
}

/// Deciphers one block in place: undoes [`aes_encipher`] under the same key.
///
/// ```
/// let (key, mut block) = ([7; 32], *b"PRESS 4 HOLD 5AM");
/// lagunedo::aes_encipher(&key, &mut block)?;
/// lagunedo::aes_decipher(&key, &mut block)?;
/// assert_eq!(&block, b"PRESS 4 HOLD 5AM");
/// # Ok::<(), lagunedo::Refusal>(())
/// ```
///
/// # Errors
///
/// Those of [`aes_encipher`]. A wrong key of an allowed length is no error.
pub fn aes_decipher(key: &[u8], block: &mut [u8]) -> Result<(), Refusal> {
    // SAFETY: as for enciphering.
    let number =
        unsafe { lagunedo_aes_decipher(key.as_ptr(), key.len(), block.as_mut_ptr(), block.len()) };
    answer(number)
}

/// Enciphers a message of 16 to 65,536 bytes in place with EME2-AES, under a
/// key of 48 bytes (AES-128 inside) or 64 (AES-256) and with associated data
/// of up to 1,024 bytes, which may be empty. The result is as long as the
/// message.
///
/// ```
/// use lagunedo::{eme2_encipher, Refusal};
///
/// let mut message = *b"PRESS 4 HOLD 5AM!";
/// eme2_encipher(&[7; 48], b"sheet 305", &mut message)?;
/// assert_ne!(&message, b"PRESS 4 HOLD 5AM!");
///
/// // Of several faults the first in order is the answer.
/// let refused = eme2_encipher(&[7; 47], &[0; 1_025], &mut message[..15]);
/// assert_eq!(refused, Err(Refusal::KeyLength));
/// # Ok::<(), Refusal>(())
/// ```
///
/// # Errors
///
/// [`Refusal::KeyLength`] if the key is neither 48 nor 64 bytes, then
/// [`Refusal::MessageLength`] if the message is below 16 bytes or above
/// 65,536, then [`Refusal::DataLength`] if the associated data is above
/// 1,024; the message is then as it was.
pub fn eme2_encipher(key: &[u8], ad: &[u8], message: &mut [u8]) -> Result<(), Refusal> {
    // SAFETY: as for AES, with a further slice that is only read. It and the
    // key may be the same bytes in Rust, or overlap, and are then read twice;
    // neither overlaps the message, which is borrowed mutably.
    let number = unsafe {
        lagunedo_eme2_encipher(
            key.as_ptr(),
            key.len(),
            ad.as_ptr(),
            ad.len(),
            message.as_mut_ptr(),
            message.len(),
        )
    };
    answer(number)
}

/// Deciphers a message in place: undoes [`eme2_encipher`] under the same key
/// and with the same associated data.
///
/// The cipher does not detect forgery. A wrong key of an allowed length, other
/// associated data, or bytes that were changed, cut off or added are no error:
/// the answer is `Ok`, and the message then holds other bytes.
///
/// ```
/// use lagunedo::{eme2_decipher, eme2_encipher};
///
/// let (key, mut message) = ([7; 64], *b"PRESS 4 HOLD 5AM!");
/// eme2_encipher(&key, b"sheet 305", &mut message)?;
/// let stored = message;
/// eme2_decipher(&key, b"sheet 305", &mut message)?;
/// assert_eq!(&message, b"PRESS 4 HOLD 5AM!");
///
/// // Other associated data is not noticed: the bytes are other bytes.
/// let mut message = stored;
/// eme2_decipher(&key, b"sheet 306", &mut message)?;
/// assert_ne!(&message, b"PRESS 4 HOLD 5AM!");
/// # Ok::<(), lagunedo::Refusal>(())
/// ```
///
/// # Errors
///
/// Those of [`eme2_encipher`]: they look at lengths alone.
pub fn eme2_decipher(key: &[u8], ad: &[u8], message: &mut [u8]) -> Result<(), Refusal> {
    // SAFETY: as for enciphering.
    let number = unsafe {
        lagunedo_eme2_decipher(
            key.as_ptr(),
            key.len(),
            ad.as_ptr(),
            ad.len(),
            message.as_mut_ptr(),
            message.len(),
        )
    };
    answer(number)
}
