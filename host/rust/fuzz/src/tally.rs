//! How often each call gave each answer, over all scripts of a run: a
//! comparison shows little of an answer that never came up.

use calls::{What, FAULT, ORDER};
use std::collections::BTreeMap;
use std::sync::Mutex;

/// What a step that is not refused comes to, by the outcome's number.
const OUTCOMES: [&str; 5] = ["done", "free", "damaged", "already", "converted"];

/// A call, the number returned and, for a step that is not refused, the
/// outcome.
type Answer = (What, u32, u32);

static COUNTS: Mutex<BTreeMap<Answer, u64>> = Mutex::new(BTreeMap::new());

fn counts() -> BTreeMap<Answer, u64> {
    COUNTS.lock().expect("no call of this file panics").clone()
}

/// A call was answered so. The first word is looked at after a step alone.
pub fn count(what: What, number: u32, word: u32) {
    let outcome = if what.is_step() && number == 0 {
        word
    } else {
        0
    };
    let mut counts = COUNTS.lock().expect("no call of this file panics");
    *counts.entry((what, number, outcome)).or_default() += 1;
}

/// The answers that 01 names for a call.
fn named(what: What, refusals: &[u32]) -> Vec<Answer> {
    let outcomes = if what.is_step() { 5 } else { 1 };
    let faulty = (what == What::Check).then_some(FAULT);
    let numbers = refusals.iter().copied().chain(faulty);
    let done = (0..outcomes).map(|outcome| (what, 0, outcome));
    done.chain(numbers.map(|number| (what, number, 0)))
        .collect()
}

/// How many calls were made.
#[must_use]
pub fn counted() -> u64 {
    counts().values().sum()
}

/// A line for each call: each answer, and how often it came.
#[must_use]
pub fn table() -> String {
    let counts = counts();
    let mut table = String::new();
    for (what, refusals) in ORDER {
        table += &format!("{:<13}", format!("{what:?}"));
        for answer @ (_, number, outcome) in named(what, refusals) {
            let times = counts.get(&answer).unwrap_or(&0);
            table += &match number {
                0 if what.is_step() => format!("  {} {times}", OUTCOMES[outcome as usize]),
                _ => format!("  {number}: {times}"),
            };
        }
        table.push('\n');
    }
    table
}

/// Whether every answer that 01 names came so often at the least, and no other
/// came.
///
/// # Errors
///
/// Those that came too rarely, and those that 01 does not name, in words.
pub fn complete(least: u64) -> Result<(), String> {
    let names: Vec<Answer> = ORDER.iter().flat_map(|(w, n)| named(*w, n)).collect();
    let mut came = counts();
    let mut times = |answer| came.remove(answer).unwrap_or(0);
    let rare: Vec<_> = names.iter().filter(|name| times(name) < least).collect();
    if rare.is_empty() && came.is_empty() {
        return Ok(());
    }
    let others = came.keys();
    Err(format!(
        "below {least} times: {rare:?}; not named by 01: {others:?}"
    ))
}

#[cfg(test)]
mod tests {
    use super::*;

    /// What is missing is told, and what 01 does not name.
    #[test]
    fn tells() {
        assert!(complete(1).is_err_and(|told| told.contains("(Read, 13, 0)")));
        for (what, refusals) in ORDER {
            let answers = named(what, refusals);
            answers
                .iter()
                .for_each(|(_, n, outcome)| count(what, *n, *outcome));
        }
        assert_eq!(complete(1), Ok(()));
        assert!(complete(2).is_err());
        count(What::Read, 14, 0);
        assert!(complete(1).is_err_and(|told| told.contains("by 01: [(Read, 14, 0)]")));
    }
}
