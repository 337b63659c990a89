//! Steps over stores with a slot of each kind, and at the ends.

use super::{step, Outcome};
use crate::numbers::{KEY_LENGTH, STORE_LENGTH};
use crate::record::RECORD;
use crate::store::tests::{example, KEYS};
use crate::{eme2, read, Keys};

/// Slots in clear, free, under the old key, free but for a byte, used and
/// unsound with mark 2, and in clear again.
fn kinds() -> Vec<u8> {
    let [used, free] = [&example()[..RECORD], &[0; RECORD]];
    let mut store = [used, free, used, free, used, used].concat();
    for (slot, number) in [(2, 2), (4, 4), (5, 5)] {
        store[slot * RECORD] = number;
    }
    store[2 * RECORD + 6] = 1;
    let (lead, text) = store[2 * RECORD..][..32].split_at_mut(16);
    assert_eq!(eme2(KEYS.old, false, lead, text), 0);
    store[3 * RECORD + 6] = 1;
    store[4 * RECORD + 6] = 2;
    store[4 * RECORD + 7] = 1;
    store
}

/// The slot after its conversion, by hand: mark 2, and the text enciphered
/// with the lead that has it.
fn converted(text: &[u8], number: u8) -> Vec<u8> {
    let mut slot = example()[..RECORD].to_vec();
    slot[0] = number;
    slot[6] = 2;
    slot[16..32].copy_from_slice(text);
    let (lead, rest) = slot.split_at_mut(16);
    assert_eq!(eme2(KEYS.new, false, lead, &mut rest[..16]), 0);
    slot
}

/// A whole job: each step does its slot alone; a second job finds it done.
#[test]
fn job() {
    let mut store = kinds();
    let text = example()[16..32].to_vec();
    let mut place = 0;
    for (slot, wanted) in [
        (0, Outcome::Converted),
        (1, Outcome::Free),
        (2, Outcome::Converted),
        (3, Outcome::Free),
        (4, Outcome::Damaged),
        (5, Outcome::Converted),
    ] {
        let mut expected = store.clone();
        if wanted == Outcome::Converted {
            let number = expected[slot * RECORD];
            let slot = &mut expected[slot * RECORD..][..RECORD];
            slot.copy_from_slice(&converted(&text, number));
        }
        assert_eq!(step(KEYS, &mut store, &mut place), Ok(wanted));
        assert_eq!(place, slot as u64 + 1);
        assert!(store == expected, "slot {slot}");
    }
    let after = store.clone();
    assert_eq!(step(KEYS, &mut store, &mut place), Ok(Outcome::Done));
    assert_eq!(place, 6, "the place stays");
    place = 0;
    assert_eq!(step(KEYS, &mut store, &mut place), Ok(Outcome::Already));
    assert_eq!(place, 1);
    assert_eq!(store, after);
    let mut buffer = [0; 16];
    for sheet in [305, 0x102, 0x105] {
        assert!(read(KEYS, &store, sheet, &mut buffer).is_ok());
        assert_eq!(buffer[..], text, "sheet {sheet}");
    }
}

/// 02, order 1: a step keeps both halves of the revision.
#[test]
fn revision_kept() {
    for halves in [[255, 255, 0, 0], [0, 0, 1, 0], [1, 2, 3, 4], [255; 4]] {
        for mark in [0, 1] {
            let mut store = example();
            store[4..6].copy_from_slice(&halves[..2]);
            store[10..12].copy_from_slice(&halves[2..]);
            store[6] = mark;
            let mut expected = store.clone();
            if mark == 1 {
                let (lead, text) = store[..32].split_at_mut(16);
                assert_eq!(eme2(KEYS.old, false, lead, text), 0);
            }
            expected[6] = 2;
            let (lead, text) = expected[..32].split_at_mut(16);
            assert_eq!(eme2(KEYS.new, false, lead, text), 0);
            assert_eq!(step(KEYS, &mut store, &mut 0), Ok(Outcome::Converted));
            assert!(store == expected, "{halves:?} under mark {mark}");
        }
    }
}

/// 01, both sides of each edge: a step of an empty store is done at once; a
/// place past the end stays, however large.
#[test]
fn past_the_end() {
    for (slots, places) in [(0, [0, 1, u64::MAX]), (2, [2, 1 << 32, u64::MAX])] {
        for before in places {
            let mut store = example()[..slots * RECORD].to_vec();
            let mut place = before;
            assert_eq!(step(KEYS, &mut store, &mut place), Ok(Outcome::Done));
            assert_eq!(place, before);
            assert_eq!(store, example()[..slots * RECORD]);
        }
    }
}

/// 01, step: 1, 4, also past the end; the place is kept.
#[test]
fn refusals() {
    let bad = Keys {
        new: &[0; 47],
        ..KEYS
    };
    for place in [0, 1, 2, 5] {
        let mut store = [example(), vec![0]].concat();
        let before = store.clone();
        let mut kept = place;
        assert_eq!(step(bad, &mut store, &mut kept), Err(KEY_LENGTH));
        assert_eq!(step(KEYS, &mut store, &mut kept), Err(STORE_LENGTH));
        assert_eq!((kept, store), (place, before));
    }
}
