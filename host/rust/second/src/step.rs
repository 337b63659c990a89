//! 01, "The store": one step of the rekeying job.

use crate::record::{self, Keys, NEW};
use crate::store::{put, slots, taken};

/// What a step did, with the number that the interface for C gives it.
#[derive(Clone, Copy, Debug, Eq, PartialEq)]
pub enum Outcome {
    /// The place is at or past the slot count; nothing changed.
    Done = 0,
    /// The slot has sheet number 0, whatever else it holds.
    Free = 1,
    /// The slot is used and unsound, whatever its mark; it is kept.
    Damaged = 2,
    /// The slot is under the new key.
    Already = 3,
    /// The slot was in clear or under the old key, and is now under the new.
    Converted = 4,
}

/// Works on the slot at the place, keeps all others, and moves the place on
/// by one unless it is past the last slot.
///
/// # Errors
///
/// 01, step: 1, 4.
pub fn step(keys: Keys, store: &mut [u8], place: &mut u64) -> Result<Outcome, u32> {
    taken(keys)?;
    let slots = slots(store)?;
    let k = match usize::try_from(*place) {
        Ok(k) if k < slots.len() => k,
        _ => return Ok(Outcome::Done),
    };
    let slot = slots[k];
    *place += 1;
    if record::sheet(slot) == 0 {
        return Ok(Outcome::Free);
    }
    if !record::sound(slot) {
        return Ok(Outcome::Damaged);
    }
    if record::mark(slot) == NEW {
        return Ok(Outcome::Already);
    }
    let (sheet, revision) = (record::sheet(slot), record::revision(slot));
    let text = record::text(slot, keys);
    let converted = record::written(sheet, revision, NEW, &text, keys);
    put(store, k, &converted);
    Ok(Outcome::Converted)
}

#[cfg(test)]
mod tests;
