//! Sheets under XTS-AES, as other plants keep them, and how a store takes them
//! over.

use crate::raw::{
    lagunedo_add_xts, lagunedo_xts_block, lagunedo_xts_decipher, lagunedo_xts_encipher,
};
use crate::refusal::answer;
use crate::{Refusal, BLOCK_SIZE};

/// Enciphers a unit of 16 to 65,536 bytes in place with XTS-AES, under a key of
/// 32 bytes (AES-128 inside) or 64 (AES-256) and for the unit's number. The
/// result is as long as the unit.
///
/// XTS-AES is here to take sheets over, and gives less than
/// [`eme2_encipher`](crate::eme2_encipher): each block is enciphered by itself.
///
/// ```
/// use lagunedo::{xts_encipher, Refusal};
///
/// let mut unit = *b"PRESS 4 HOLD 5AM!";
/// xts_encipher(&[7; 32], 305, &mut unit)?;
/// assert_ne!(&unit, b"PRESS 4 HOLD 5AM!");
///
/// // Keys of EME2-AES may have 48 bytes, and those of XTS-AES may not.
/// let refused = xts_encipher(&[7; 48], 305, &mut unit);
/// assert_eq!(refused, Err(Refusal::XtsKeyLength));
/// # Ok::<(), Refusal>(())
/// ```
///
/// # Errors
///
/// [`Refusal::XtsKeyLength`] if the key is neither 32 nor 64 bytes, then
/// [`Refusal::UnitLength`] if the unit is below 16 bytes or above 65,536; the
/// unit is then as it was.
pub fn xts_encipher(key: &[u8], number: u64, unit: &mut [u8]) -> Result<(), Refusal> {
    // SAFETY: slices of any length are taken. The key is only read; the unit is
    // borrowed mutably and so overlaps nothing. Nothing is kept.
    let returned = unsafe {
        lagunedo_xts_encipher(
            key.as_ptr(),
            key.len(),
            number,
            unit.as_mut_ptr(),
            unit.len(),
        )
    };
    answer(returned)
}

/// Deciphers a unit in place: undoes [`xts_encipher`] under the same key and for
/// the same number.
///
/// XTS-AES does not detect forgery. A wrong key of an allowed length, another
/// unit's number or bytes that were changed are no error: the answer is `Ok`,
/// and the unit then holds other bytes.
///
/// ```
/// use lagunedo::{xts_decipher, xts_encipher};
///
/// let (key, mut unit) = ([7; 64], *b"PRESS 4 HOLD 5AM!");
/// xts_encipher(&key, 305, &mut unit)?;
/// xts_decipher(&key, 305, &mut unit)?;
/// assert_eq!(&unit, b"PRESS 4 HOLD 5AM!");
/// # Ok::<(), lagunedo::Refusal>(())
/// ```
///
/// # Errors
///
/// Those of [`xts_encipher`]: they look at lengths alone.
pub fn xts_decipher(key: &[u8], number: u64, unit: &mut [u8]) -> Result<(), Refusal> {
    // SAFETY: as for enciphering.
    let returned = unsafe {
        lagunedo_xts_decipher(
            key.as_ptr(),
            key.len(),
            number,
            unit.as_mut_ptr(),
            unit.len(),
        )
    };
    answer(returned)
}

/// Block `k` of an enciphered unit, counted from 0, deciphered without the ones
/// before it.
///
/// ```
/// use lagunedo::{xts_block, xts_encipher, Refusal};
///
/// // Two full blocks and three odd bytes, which are tied to the second.
/// let (key, mut unit) = ([7; 32], *b"PRESS 4 HOLD 5AMPRESS 1 AT SEVEN...");
/// xts_encipher(&key, 305, &mut unit)?;
/// assert_eq!(xts_block(&key, 305, &unit, 0)?, *b"PRESS 4 HOLD 5AM");
/// assert_eq!(xts_block(&key, 305, &unit, 1), Err(Refusal::BlockNotAlone));
/// # Ok::<(), Refusal>(())
/// ```
///
/// # Errors
///
/// Those of [`xts_encipher`], then [`Refusal::BlockNotAlone`] if, with f full
/// blocks, `k` is not below f, or f - 1 where the unit ends in odd bytes.
pub fn xts_block(
    key: &[u8],
    number: u64,
    unit: &[u8],
    k: u64,
) -> Result<[u8; BLOCK_SIZE], Refusal> {
    let mut block = [0; BLOCK_SIZE];
    // SAFETY: slices of any length are taken, and only read. The block is this
    // function's own. Nothing is kept.
    let returned = unsafe {
        lagunedo_xts_block(
            key.as_ptr(),
            key.len(),
            number,
            unit.as_ptr(),
            unit.len(),
            k,
            &mut block,
        )
    };
    answer(returned).map(|()| block)
}

/// Takes a sheet over: adds what a unit of up to 2,096 bytes deciphers to as a
/// new sheet, as [`add`](crate::add) adds a text, and gives its revision, 1. The
/// unit is kept.
///
/// ```
/// use lagunedo::{add_xts, read, xts_encipher, Refusal};
///
/// let (xts_key, old, new) = ([7; 32], [1; 48], [2; 48]);
/// let mut unit = *b"PRESS 4 HOLD 5AM";
/// xts_encipher(&xts_key, 9, &mut unit)?;
///
/// let mut store = vec![0; lagunedo::RECORD_SIZE];
/// assert_eq!(add_xts(&xts_key, 9, &unit, &old, &new, &mut store, 305), Ok(1));
/// let mut text = [0; 16];
/// read(&old, &new, &store, 305, &mut text)?;
/// assert_eq!(&text, b"PRESS 4 HOLD 5AM");
///
/// // Made again it is refused.
/// let again = add_xts(&xts_key, 9, &unit, &old, &new, &mut store, 305);
/// assert_eq!(again, Err(Refusal::SheetPresent));
/// # Ok::<(), Refusal>(())
/// ```
///
/// # Errors
///
/// In this order: [`Refusal::XtsKeyLength`], [`Refusal::UnitLength`], and then
/// those of [`add`](crate::add), where [`Refusal::TextLength`] is that of a unit
/// above 2,096 bytes; the store is then as it was. A wrong XTS key of an allowed
/// length, or another number, is no error.
pub fn add_xts(
    xts_key: &[u8],
    number: u64,
    unit: &[u8],
    old_key: &[u8],
    new_key: &[u8],
    store: &mut [u8],
    sheet: u32,
) -> Result<u32, Refusal> {
    let mut revision = 0;
    // SAFETY: slices of any length are taken. Those that are only read may
    // overlap in Rust; the store, borrowed mutably, overlaps none of them. The
    // revision is this function's own. Nothing is kept.
    let returned = unsafe {
        lagunedo_add_xts(
            xts_key.as_ptr(),
            xts_key.len(),
            number,
            unit.as_ptr(),
            unit.len(),
            old_key.as_ptr(),
            old_key.len(),
            new_key.as_ptr(),
            new_key.len(),
            store.as_mut_ptr(),
            store.len(),
            sheet,
            &mut revision,
        )
    };
    answer(returned).map(|()| revision)
}
