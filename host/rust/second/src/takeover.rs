//! 02, order 3: a conversion, which adds what a unit deciphers to as a sheet.

use crate::record::Keys;
use crate::store::add;
use crate::xts::{taken, xts};

/// The text of a unit under XTS-AES added as a new sheet, as `add` adds it, and
/// its revision, 1. The unit is kept.
///
/// # Errors
///
/// 02, order 3: 15, 16; then those of `add`, with what the unit deciphers to as
/// the text, which is as long as the unit.
pub fn add_xts(
    xts_key: &[u8],
    number: u64,
    unit: &[u8],
    keys: Keys,
    store: &mut [u8],
    sheet: u32,
) -> Result<u32, u32> {
    taken(xts_key, unit)?;
    let mut text = unit.to_vec();
    assert_eq!(xts(xts_key, true, number, &mut text), 0);
    add(keys, store, sheet, &text)
}

#[cfg(test)]
mod tests;
