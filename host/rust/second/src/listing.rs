//! 01, "Listing": all that the listing program prints of its input.

use crate::record::{self, RECORD};
use crate::store::{check, Checked, Counts};

/// The most slots that are listed.
const MOST: usize = 31;

/// The output for these bytes. More than 31 slots are too long, whatever
/// else is wrong with them; every line ends in a newline.
pub fn listing(store: &[u8]) -> String {
    if store.len() > MOST * RECORD {
        return "too long\n".into();
    }
    match check(store) {
        Err(number) => format!("refused {number}\n"),
        Ok(Checked::Faulty(slot)) => format!("fault at {slot}\n"),
        Ok(Checked::Sound(counts)) => lines(store) + &last_line(counts),
    }
}

/// A line for each used slot: slot, sheet, revision, mark, length.
fn lines(store: &[u8]) -> String {
    let slots = store.chunks(RECORD).enumerate();
    let used = slots.filter(|(_, slot)| record::sheet(slot) != 0);
    used.map(|(k, slot)| {
        let (sheet, revision) = (record::sheet(slot), record::revision(slot));
        let (mark, length) = (record::mark(slot), record::length(slot));
        format!("{k} {sheet} {revision} {mark} {length}\n")
    })
    .collect()
}

fn last_line(counts: Counts) -> String {
    let Counts {
        used,
        free,
        clear,
        old,
        new,
    } = counts;
    format!("used {used} free {free} clear {clear} old {old} new {new}\n")
}

#[cfg(test)]
mod tests;
