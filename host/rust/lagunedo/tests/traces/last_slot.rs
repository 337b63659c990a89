//! The last-slot claim of demand 3: once a copy of the job begun at slot 0 has
//! made as many steps as there are slots, no sheet is marked clear or old key.
//! It is looked at in the bytes of the store alone.

use second::record::{self, NEW, RECORD};
use std::collections::BTreeSet;

/// A copy of the job.
struct JobCopy {
    from_zero: bool,
    steps: usize,
    converted: bool,
}

/// Counts the steps of each copy, and sees what the claim stood up to.
pub struct LastSlot {
    slots: usize,
    copies: Vec<JobCopy>,
    /// There was something to convert at the start.
    work: bool,
    /// There still was when a copy was one step short of its last.
    pub needed: bool,
    /// The calls that changed a sheet after some copy's first step and before
    /// any copy's last.
    meanwhile: BTreeSet<&'static str>,
}

impl LastSlot {
    pub fn new(store: &[u8]) -> Self {
        Self {
            slots: store.len() / RECORD,
            copies: vec![],
            work: left(store).is_some(),
            needed: false,
            meanwhile: BTreeSet::new(),
        }
    }

    /// A copy begins. Copies are counted from 0.
    pub fn began(&mut self, place: u64) {
        self.copies.push(JobCopy {
            from_zero: place == 0,
            steps: 0,
            converted: false,
        });
    }

    /// A copy made a step, which left the store so.
    pub fn stepped(&mut self, copy: usize, converted: bool, store: &[u8]) {
        let copy = &mut self.copies[copy];
        copy.steps += 1;
        copy.converted |= converted;
        let one_short = copy.from_zero && copy.steps + 1 == self.slots;
        self.needed |= one_short && left(store).is_some();
    }

    /// A call other than a step changed a sheet.
    pub fn changed(&mut self, call: &'static str) {
        if self.begun_at_zero().any(|copy| copy.steps > 0) && !self.due() {
            self.meanwhile.insert(call);
        }
    }

    /// The claim, after any event.
    pub fn holds(&self, store: &[u8]) {
        if self.due() {
            let left = left(store);
            assert_eq!(left, None, "a slot that no copy converted, and its mark");
        }
    }

    /// A copy has made all its steps, so that the claim says something.
    pub fn due(&self) -> bool {
        self.begun_at_zero().any(|copy| copy.steps >= self.slots)
    }

    /// What it says was not so from the start.
    pub fn reached(&self) -> bool {
        self.work && self.due()
    }

    /// Several copies converted sheets, and meanwhile calls of each kind
    /// changed some.
    pub fn mixed(&self) -> bool {
        let converting = self.copies.iter().filter(|copy| copy.converted);
        self.reached() && converting.count() > 1 && self.meanwhile.len() == 4
    }

    fn begun_at_zero(&self) -> impl Iterator<Item = &JobCopy> {
        self.copies.iter().filter(|copy| copy.from_zero)
    }
}

/// The lowest slot with a sheet in clear or under the old key, and its mark.
fn left(store: &[u8]) -> Option<(usize, u8)> {
    let marks = store.chunks(RECORD).map(mark).enumerate();
    let mut used = marks.filter_map(|(slot, mark)| Some((slot, mark?)));
    used.find(|(_, mark)| *mark != NEW)
}

/// The mark of a slot, if it is used.
pub fn mark(slot: &[u8]) -> Option<u8> {
    (record::sheet(slot) != 0).then(|| record::mark(slot))
}

#[cfg(test)]
mod tests {
    use super::*;
    use second::record::{Lead, CLEAR, OLD};

    /// Puts a sheet of the slot's own number there.
    fn put(store: &mut [u8], slot: usize, mark: u8) {
        let lead = Lead {
            sheet: slot as u32 + 1,
            revision: 1,
            mark,
            length: 16,
        };
        lead.put(&mut store[slot * RECORD..]);
    }

    /// Two sheets in clear, and a copy that begins at a place.
    fn two_sheets(place: u64) -> (Vec<u8>, LastSlot) {
        let mut store = vec![0; 2 * RECORD];
        put(&mut store, 0, CLEAR);
        put(&mut store, 1, CLEAR);
        let mut claim = LastSlot::new(&store);
        claim.began(place);
        (store, claim)
    }

    /// The idle program of 01 that converts in the first step and then only
    /// moves the place.
    #[test]
    #[should_panic(expected = "no copy converted")]
    fn idle_after_the_first_step() {
        let (mut store, mut claim) = two_sheets(0);
        put(&mut store, 0, NEW);
        claim.stepped(0, true, &store);
        claim.holds(&store);
        claim.stepped(0, true, &store);
        claim.holds(&store);
    }

    /// A sheet that falls back after the last step.
    #[test]
    #[should_panic(expected = "no copy converted")]
    fn back_under_the_old_key() {
        let (mut store, mut claim) = two_sheets(0);
        for slot in 0..2 {
            put(&mut store, slot, NEW);
            claim.stepped(0, true, &store);
        }
        claim.holds(&store);
        assert!(claim.reached() && claim.needed);
        put(&mut store, 0, OLD);
        claim.holds(&store);
    }

    /// Nothing is claimed of the steps of a copy that began elsewhere, nor of
    /// steps that two copies made between them.
    #[test]
    fn other_copies() {
        let (store, mut claim) = two_sheets(1);
        claim.began(0);
        (0..9).for_each(|_| claim.stepped(0, false, &store));
        claim.stepped(1, false, &store);
        claim.holds(&store);
        assert!(!claim.due());
    }
}
