//! 01, "The store": the calls on a whole store, each with its refusals in
//! the order that 01 lists for it. A refused call has changed nothing.

use crate::numbers::{
    BUFFER_LENGTH, KEY_LENGTH, LAST_REVISION, NO_FREE_SLOT, NO_SHEET, OTHER_REVISION,
    SHEET_PRESENT, SHEET_ZERO, SLOT_UNSOUND, STORE_LENGTH, TEXT_LENGTH,
};
use crate::record::{self, Keys, CLEAR, GREATEST_REVISION, LONGEST, NEW, OLD, RECORD, SHORTEST};

/// The most slots that a store has.
const MOST: usize = 1_024;

/// How many slots there are of each kind.
#[derive(Clone, Copy, Debug, Default, Eq, PartialEq)]
pub struct Counts {
    /// With a sheet number other than 0.
    pub used: u32,
    /// With sheet number 0.
    pub free: u32,
    /// Used, with the text in clear.
    pub clear: u32,
    /// Used, with the text under the old key.
    pub old: u32,
    /// Used, with the text under the new key.
    pub new: u32,
}

/// What check finds.
#[derive(Clone, Copy, Debug, Eq, PartialEq)]
pub enum Checked {
    /// The store is sound.
    Sound(Counts),
    /// This slot is the lowest that is unsound or repeats a lower slot's
    /// number other than 0.
    Faulty(u32),
}

/// What read gives beside the text.
#[derive(Clone, Copy, Debug, Eq, PartialEq)]
pub struct Found {
    /// The length of the text.
    pub length: u32,
    /// The stored revision.
    pub revision: u32,
}

/// The lowest faulty slot, or else the five counts.
///
/// # Errors
///
/// 01, check: 4.
pub fn check(store: &[u8]) -> Result<Checked, u32> {
    let slots = slots(store)?;
    let mut counts = Counts::default();
    for (k, slot) in slots.iter().enumerate() {
        let sheet = record::sheet(slot);
        let repeats = sheet != 0 && lowest(&slots[..k], sheet).is_some();
        if repeats || !record::sound(slot) {
            let k = u32::try_from(k).expect("at most 1,024 slots");
            return Ok(Checked::Faulty(k));
        }
        if sheet == 0 {
            counts.free += 1;
            continue;
        }
        counts.used += 1;
        match record::mark(slot) {
            CLEAR => counts.clear += 1,
            OLD => counts.old += 1,
            _ => counts.new += 1,
        }
    }
    Ok(Checked::Sound(counts))
}

/// Writes the text of a sheet to the front of the buffer.
///
/// # Errors
///
/// 01, read: 1, 4, 5, 7, 12, 13; the buffer is then as it was.
pub fn read(keys: Keys, store: &[u8], sheet: u32, buffer: &mut [u8]) -> Result<Found, u32> {
    taken(keys)?;
    let slots = slots(store)?;
    let slot = slots[found(&slots, sheet)?];
    sound(slot)?;
    let length = record::length(slot);
    if buffer.len() < length {
        return Err(BUFFER_LENGTH);
    }
    buffer[..length].copy_from_slice(&record::text(slot, keys));
    Ok(Found {
        length: u32::try_from(length).expect("at most 2,096 bytes"),
        revision: record::revision(slot),
    })
}

/// Writes a new sheet into the lowest slot whose number is 0, whatever else
/// that slot holds, and gives its revision, 1.
///
/// # Errors
///
/// 01, add: 1, 4, 5, 6, 11, 10.
pub fn add(keys: Keys, store: &mut [u8], sheet: u32, text: &[u8]) -> Result<u32, u32> {
    taken(keys)?;
    let slots = slots(store)?;
    named(sheet)?;
    fits(text)?;
    if lowest(&slots, sheet).is_some() {
        return Err(SHEET_PRESENT);
    }
    let k = lowest(&slots, 0).ok_or(NO_FREE_SLOT)?;
    put(store, k, &record::written(sheet, 1, NEW, text, keys));
    Ok(1)
}

/// Replaces the text of a sheet of which the operator saw revision `seen`,
/// and gives the revision now stored, one higher.
///
/// # Errors
///
/// 01, revise: 1, 4, 5, 6, 7, 12, 8, 9.
pub fn revise(
    keys: Keys,
    store: &mut [u8],
    sheet: u32,
    seen: u32,
    text: &[u8],
) -> Result<u32, u32> {
    taken(keys)?;
    let slots = slots(store)?;
    named(sheet)?;
    fits(text)?;
    let k = found(&slots, sheet)?;
    sound(slots[k])?;
    let stored = record::revision(slots[k]);
    if seen != stored {
        return Err(OTHER_REVISION);
    }
    if stored == GREATEST_REVISION {
        return Err(LAST_REVISION);
    }
    let revision = stored + 1;
    put(store, k, &record::written(sheet, revision, NEW, text, keys));
    Ok(revision)
}

/// Zeros the slot of a sheet, sound or not.
///
/// # Errors
///
/// 01, remove: 4, 5, 7.
pub fn remove(store: &mut [u8], sheet: u32) -> Result<(), u32> {
    let k = found(&slots(store)?, sheet)?;
    put(store, k, &[0; RECORD]);
    Ok(())
}

/// Each slot's bytes, or number 4.
pub fn slots(store: &[u8]) -> Result<Vec<&[u8]>, u32> {
    if !store.len().is_multiple_of(RECORD) || store.len() / RECORD > MOST {
        return Err(STORE_LENGTH);
    }
    Ok(store.chunks(RECORD).collect())
}

/// Overwrites slot k and nothing else.
pub fn put(store: &mut [u8], k: usize, record: &[u8]) {
    store[k * RECORD..][..RECORD].copy_from_slice(record);
}

/// Number 1, of both keys: their lengths may differ.
pub fn taken(keys: Keys) -> Result<(), u32> {
    for key in [keys.old, keys.new] {
        if key.len() != 48 && key.len() != 64 {
            return Err(KEY_LENGTH);
        }
    }
    Ok(())
}

/// Number 5.
fn named(sheet: u32) -> Result<(), u32> {
    if sheet == 0 {
        return Err(SHEET_ZERO);
    }
    Ok(())
}

/// Number 6.
fn fits(text: &[u8]) -> Result<(), u32> {
    if text.len() < SHORTEST || text.len() > LONGEST {
        return Err(TEXT_LENGTH);
    }
    Ok(())
}

/// Numbers 5 and 7, or the lowest slot with the number.
fn found(slots: &[&[u8]], sheet: u32) -> Result<usize, u32> {
    named(sheet)?;
    lowest(slots, sheet).ok_or(NO_SHEET)
}

/// Number 12, of one slot: a repeated number is no fault here.
fn sound(slot: &[u8]) -> Result<(), u32> {
    if !record::sound(slot) {
        return Err(SLOT_UNSOUND);
    }
    Ok(())
}

/// The lowest slot with a number, which may be 0.
fn lowest(slots: &[&[u8]], sheet: u32) -> Option<usize> {
    slots.iter().position(|slot| record::sheet(slot) == sheet)
}

#[cfg(test)]
pub mod tests;
