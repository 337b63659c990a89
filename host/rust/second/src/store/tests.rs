//! The store against 01's example, its table of fields and its edges.

use super::{add, check, read, remove, revise, Checked, Counts, Found};
use crate::numbers::{
    BUFFER_LENGTH, KEY_LENGTH, LAST_REVISION, NO_FREE_SLOT, NO_SHEET, OTHER_REVISION,
    SHEET_PRESENT, SHEET_ZERO, SLOT_UNSOUND, STORE_LENGTH, TEXT_LENGTH,
};
use crate::record::RECORD;
use crate::{eme2, Keys};

pub const KEYS: Keys = Keys {
    old: &[1; 48],
    new: &[2; 64],
};

/// The text of 01's example.
const PRESS: &[u8; 16] = b"PRESS 4 HOLD 5AM";

/// The store of 01's example: two slots, the second free.
pub fn example() -> Vec<u8> {
    let mut store = vec![0; 2 * RECORD];
    store[..10].copy_from_slice(&[0x31, 1, 0, 0, 2, 0, 0, 0, 0x10, 0]);
    store[16..32].copy_from_slice(PRESS);
    store
}

/// As many slots, each with the example's text under its number from 1.
fn full(slots: u16) -> Vec<u8> {
    let mut store = Vec::new();
    for number in 1..=slots {
        store.extend(&example()[..RECORD]);
        let at = store.len() - RECORD;
        store[at..at + 2].copy_from_slice(&number.to_le_bytes());
    }
    store
}

fn sound(used: u32, free: u32, marks: [u32; 3]) -> Result<Checked, u32> {
    let [clear, old, new] = marks;
    Ok(Checked::Sound(Counts {
        used,
        free,
        clear,
        old,
        new,
    }))
}

fn text(store: &[u8], sheet: u32) -> Vec<u8> {
    let mut buffer = vec![0; 2_096];
    let found = read(KEYS, store, sheet, &mut buffer).expect("a sheet");
    buffer.truncate(found.length as usize);
    buffer
}

/// 01, listing: sheet 305 at revision 2, in clear, and the counts.
#[test]
fn example_of_01() {
    let store = example();
    assert_eq!(check(&store), sound(1, 1, [1, 0, 0]));
    let mut buffer = [0xee; 20];
    let found = read(KEYS, &store, 305, &mut buffer);
    let wanted = Found {
        length: 16,
        revision: 2,
    };
    assert_eq!(found, Ok(wanted));
    assert_eq!(buffer[..16], PRESS[..]);
    assert_eq!(buffer[16..], [0xee; 4], "the rest is kept");
}

/// 01, both sides of each edge: an empty store.
#[test]
fn empty() {
    assert_eq!(check(&[]), sound(0, 0, [0, 0, 0]));
    assert_eq!(read(KEYS, &[], 1, &mut []), Err(NO_SHEET));
    assert_eq!(add(KEYS, &mut [], 1, PRESS), Err(NO_FREE_SLOT));
    assert_eq!(revise(KEYS, &mut [], 1, 1, PRESS), Err(NO_SHEET));
    assert_eq!(remove(&mut [], 1), Err(NO_SHEET));
}

/// The slot's bytes by hand: the lead, the text under the new key with that
/// lead, zeros behind. A byte left in the slot is overwritten (reading 1).
#[test]
fn added() {
    let long: Vec<u8> = (0..=255).cycle().take(2_096).collect();
    for length in [16, 17, 2_095, 2_096] {
        let mut store = example();
        store[RECORD + 5] = 7;
        store[2 * RECORD - 1] = 7;
        let text = &long[..length];
        assert_eq!(add(KEYS, &mut store, 0x0403_0201, text), Ok(1));
        let [low, high] = u16::try_from(length).expect("short").to_le_bytes();
        let lead = [1, 2, 3, 4, 1, 0, 2, 0, low, high, 0, 0, 0, 0, 0, 0];
        let mut stored = text.to_vec();
        assert_eq!(eme2(KEYS.new, false, &lead, &mut stored), 0);
        stored.resize(2_096, 0);
        assert_eq!(store[..RECORD], example()[..RECORD], "slot 0 is kept");
        assert_eq!(store[RECORD..], [&lead[..], &stored].concat());
        assert_eq!(check(&store), sound(2, 0, [1, 0, 1]));
        assert_eq!(self::text(&store, 0x0403_0201), text);
    }
}

/// The lowest free slot is taken, and a slot freed by a removal is free.
#[test]
fn freed() {
    let mut store = full(4);
    assert_eq!(add(KEYS, &mut store, 9, PRESS), Err(NO_FREE_SLOT));
    for sheet in [4, 2] {
        assert_eq!(remove(&mut store, sheet), Ok(()));
    }
    let mut wanted = full(4);
    wanted[RECORD..2 * RECORD].fill(0);
    wanted[3 * RECORD..].fill(0);
    assert_eq!(store, wanted);
    assert_eq!(check(&store), sound(2, 2, [2, 0, 0]));
    assert_eq!(add(KEYS, &mut store, 9, PRESS), Ok(1));
    assert_eq!(store[RECORD], 9);
    assert_eq!(add(KEYS, &mut store, 2, PRESS), Ok(1));
    assert_eq!(store[3 * RECORD], 2);
    assert_eq!(add(KEYS, &mut store, 10, PRESS), Err(NO_FREE_SLOT));
}

/// The text is replaced whole, by a shorter one too, at the next revision.
#[test]
fn revised() {
    let mut store = example();
    assert_eq!(revise(KEYS, &mut store, 305, 2, &[7; 40]), Ok(3));
    assert_eq!(text(&store, 305), [7; 40]);
    assert_eq!(revise(KEYS, &mut store, 305, 3, PRESS), Ok(4));
    assert_eq!(text(&store, 305), PRESS);
    let lead = [0x31, 1, 0, 0, 4, 0, 2, 0, 16, 0, 0, 0, 0, 0, 0, 0];
    assert_eq!(store[..16], lead);
    assert!(store[32..].iter().all(|b| *b == 0));
    assert_eq!(check(&store), sound(1, 1, [0, 0, 1]));
}

/// The example with its sheet at a revision, by hand: low half in bytes 4 and
/// 5, high half in 10 and 11.
fn at_revision(low: u16, high: u16) -> Vec<u8> {
    let mut store = example();
    store[4..6].copy_from_slice(&low.to_le_bytes());
    store[10..12].copy_from_slice(&high.to_le_bytes());
    store
}

/// 02, order 1: after 65,535 comes 65,536, with 0 in the low half and 1 in the
/// high one. Both halves are in the lead that the text is enciphered with.
#[test]
fn past_65535() {
    let mut store = at_revision(65_534, 0);
    for (seen, lead) in [
        (
            65_534,
            [0x31, 1, 0, 0, 255, 255, 2, 0, 16, 0, 0, 0, 0, 0, 0, 0],
        ),
        (65_535, [0x31, 1, 0, 0, 0, 0, 2, 0, 16, 0, 1, 0, 0, 0, 0, 0]),
        (65_536, [0x31, 1, 0, 0, 1, 0, 2, 0, 16, 0, 1, 0, 0, 0, 0, 0]),
    ] {
        assert_eq!(revise(KEYS, &mut store, 305, seen, PRESS), Ok(seen + 1));
        assert_eq!(store[..16], lead);
        let mut stored = *PRESS;
        assert_eq!(eme2(KEYS.new, false, &lead, &mut stored), 0);
        assert_eq!(store[16..32], stored);
        assert_eq!(check(&store), sound(1, 1, [0, 0, 1]));
        let found = read(KEYS, &store, 305, &mut [0; 16]);
        assert_eq!(found.map(|found| found.revision), Ok(seen + 1));
        assert_eq!(text(&store, 305), PRESS);
    }
}

/// 02, order 1, both sides of the edge: 4,294,967,294, then 4,294,967,295, the
/// last.
#[test]
fn last_revision() {
    let mut store = at_revision(65_534, 65_535);
    let revised = revise(KEYS, &mut store, 305, 4_294_967_294, PRESS);
    assert_eq!(revised, Ok(4_294_967_295));
    let before = store.clone();
    for (seen, number) in [
        (4_294_967_295, LAST_REVISION),
        (4_294_967_294, OTHER_REVISION),
        (65_535, OTHER_REVISION),
        (0, OTHER_REVISION),
    ] {
        assert_eq!(revise(KEYS, &mut store, 305, seen, PRESS), Err(number));
    }
    assert_eq!(store, before);
    assert_eq!(text(&store, 305), PRESS);
}

/// The revision is compared whole: where one half agrees, it is another one.
#[test]
fn one_half_of_the_revision() {
    for (low, high) in [(2, 0), (2, 1), (1, 2), (0, 1), (65_535, 65_535)] {
        let mut store = at_revision(low, high);
        let [low, high] = [low, high].map(u32::from);
        let stored = high * 65_536 + low;
        let before = store.clone();
        for seen in [low, high, high * 65_536, low * 65_536 + high] {
            if seen != stored {
                let revised = revise(KEYS, &mut store, 305, seen, PRESS);
                assert_eq!(revised, Err(OTHER_REVISION), "{seen} at {stored}");
            }
        }
        for half in [1, 65_536] {
            for seen in [stored.wrapping_add(half), stored.wrapping_sub(half)] {
                let revised = revise(KEYS, &mut store, 305, seen, PRESS);
                assert_eq!(revised, Err(OTHER_REVISION), "{seen} at {stored}");
            }
        }
        assert_eq!(store, before);
    }
}

/// Each mark is deciphered under its own key, with the lead as stored.
#[test]
fn marks() {
    for (mark, key) in [(1, KEYS.old), (2, KEYS.new)] {
        let mut store = example();
        store[6] = mark;
        let lead = store[..16].to_vec();
        assert_eq!(eme2(key, false, &lead, &mut store[16..32]), 0);
        assert_eq!(text(&store, 305), PRESS);
        let marks = [0, u32::from(mark == 1), u32::from(mark == 2)];
        assert_eq!(check(&store), sound(1, 1, marks));
    }
}

/// 01, both sides of each edge: a read into a buffer one byte short.
#[test]
fn short_buffer() {
    for (length, wanted) in [(0, None), (15, None), (16, Some(16)), (17, Some(16))] {
        let mut buffer = vec![0xee; length];
        let found = read(KEYS, &example(), 305, &mut buffer);
        match wanted {
            Some(wanted) => assert_eq!(found.map(|f| f.length), Ok(wanted)),
            None => {
                assert_eq!(found, Err(BUFFER_LENGTH));
                assert_eq!(buffer, vec![0xee; length]);
            }
        }
    }
}

/// 1,024 slots are a store; one more, and one byte more or less, are not.
#[test]
fn sizes() {
    let mut store = full(1_025);
    let whole = 1_024 * RECORD;
    assert_eq!(check(&store[..whole]), sound(1_024, 0, [1_024, 0, 0]));
    assert_eq!(text(&store[..whole], 1_024), PRESS);
    let before = store.clone();
    for length in [1, RECORD - 1, RECORD + 1, whole - 1, whole + 1, store.len()] {
        let store = &mut store[..length];
        assert_eq!(check(store), Err(STORE_LENGTH));
        assert_eq!(read(KEYS, store, 1, &mut [0; 16]), Err(STORE_LENGTH));
        assert_eq!(add(KEYS, store, 2_000, PRESS), Err(STORE_LENGTH));
        assert_eq!(revise(KEYS, store, 1, 2, PRESS), Err(STORE_LENGTH));
        assert_eq!(remove(store, 1), Err(STORE_LENGTH));
    }
    assert_eq!(store, before);
}

#[test]
fn text_lengths() {
    for length in [0, 15, 2_097, 65_552] {
        let [mut store, before] = [example(), example()];
        let text = vec![7; length];
        assert_eq!(add(KEYS, &mut store, 1, &text), Err(TEXT_LENGTH));
        assert_eq!(revise(KEYS, &mut store, 305, 2, &text), Err(TEXT_LENGTH));
        assert_eq!(store, before);
    }
}

/// Both keys are looked at, and their lengths may differ (reading 4).
#[test]
fn keys() {
    for old in [0, 32, 47, 48, 49, 63, 64, 65] {
        for new in [0, 32, 47, 48, 49, 63, 64, 65] {
            let good = [old, new].iter().all(|n| [48, 64].contains(n));
            let [old, new] = [old, new].map(|n| vec![7; n]);
            let keys = Keys {
                old: &old,
                new: &new,
            };
            let mut store = example();
            let mut buffer = [0; 16];
            let answers = [
                read(keys, &store, 305, &mut buffer).map(|_| ()),
                add(keys, &mut store, 1, PRESS).map(|_| ()),
                revise(keys, &mut store, 305, 2, PRESS).map(|_| ()),
            ];
            assert_eq!(answers, [if good { Ok(()) } else { Err(KEY_LENGTH) }; 3]);
            assert_eq!(store != example(), good);
            assert_eq!(buffer != [0; 16], good);
        }
    }
}

#[test]
fn sheet_zero() {
    let mut store = example();
    assert_eq!(read(KEYS, &store, 0, &mut [0; 16]), Err(SHEET_ZERO));
    assert_eq!(add(KEYS, &mut store, 0, PRESS), Err(SHEET_ZERO));
    assert_eq!(revise(KEYS, &mut store, 0, 2, PRESS), Err(SHEET_ZERO));
    assert_eq!(remove(&mut store, 0), Err(SHEET_ZERO));
    assert_eq!(store, example());
}

/// Bytes to be put at a place of a used slot with a text of 16 bytes.
type Change = (usize, &'static [u8]);

/// Each field out of its range in turn, on both sides where it has two.
const UNSOUND_FIELDS: [Change; 15] = [
    (4, &[0, 0]),
    (6, &[3]),
    (6, &[255]),
    (7, &[1]),
    (8, &[15, 0]),
    (8, &[0, 0]),
    (8, &[0x31, 8]),
    (8, &[255, 255]),
    (12, &[1]),
    (13, &[1]),
    (14, &[255]),
    (15, &[128]),
    (32, &[1]),
    (100, &[255]),
    (2_111, &[1]),
];

/// Each field at the ends of its range.
const SOUND_FIELDS: [Change; 13] = [
    (0, &[255, 255, 255, 255]),
    (0, &[0, 0, 0, 1]),
    (4, &[1, 0]),
    (4, &[255, 255]),
    (4, &[0, 0, 0, 0, 16, 0, 1, 0]),
    (4, &[0, 0, 0, 0, 16, 0, 0, 1]),
    (6, &[0]),
    (6, &[1]),
    (6, &[2]),
    (8, &[17, 0]),
    (8, &[0x30, 8]),
    (10, &[1, 0]),
    (10, &[255, 255]),
];

fn changed((place, bytes): Change) -> Vec<u8> {
    let mut store = example();
    store[place..place + bytes.len()].copy_from_slice(bytes);
    store
}

/// An unsound sheet is neither read nor revised, but is removed and keeps its
/// number from being added again.
#[test]
fn unsound_fields() {
    for change in UNSOUND_FIELDS {
        let mut store = changed(change);
        let before = store.clone();
        let mut buffer = [0; 2_096];
        assert_eq!(check(&store), Ok(Checked::Faulty(0)), "{change:?}");
        let found = read(KEYS, &store, 305, &mut buffer);
        assert_eq!(found, Err(SLOT_UNSOUND), "{change:?}");
        assert_eq!(buffer, [0; 2_096]);
        let seen = u32::from(store[4]);
        assert_eq!(
            revise(KEYS, &mut store, 305, seen, PRESS),
            Err(SLOT_UNSOUND)
        );
        assert_eq!(add(KEYS, &mut store, 305, PRESS), Err(SHEET_PRESENT));
        assert_eq!(store, before);
        assert_eq!(remove(&mut store, 305), Ok(()));
        assert_eq!(store, [0; 2 * RECORD]);
    }
}

#[test]
fn sound_fields() {
    for change in SOUND_FIELDS {
        let found = check(&changed(change));
        assert!(matches!(found, Ok(Checked::Sound(_))), "{change:?}");
    }
}

/// Reading 1: check faults a free slot with any byte set.
#[test]
fn free_slot_with_a_byte_set() {
    for place in 4..RECORD {
        let store = changed((RECORD + place, &[128]));
        assert_eq!(check(&store), Ok(Checked::Faulty(1)), "byte {place}");
    }
}

/// Reading 2: the lowest slot with the number is the one taken, and only
/// check minds the other. The lowest fault is the one answered.
#[test]
fn repeated() {
    let mut store = full(4);
    store[2 * RECORD] = 1;
    store[3 * RECORD] = 1;
    assert_eq!(check(&store), Ok(Checked::Faulty(2)));
    let upper = store[RECORD..].to_vec();
    assert_eq!(revise(KEYS, &mut store, 1, 2, &[7; 20]), Ok(3));
    assert_eq!(text(&store, 1), [7; 20]);
    assert_eq!(remove(&mut store, 1), Ok(()));
    assert_eq!(store[RECORD..], upper);
    assert_eq!(text(&store, 1), PRESS);
    assert_eq!(check(&store), Ok(Checked::Faulty(3)));
    store[RECORD + 7] = 1;
    assert_eq!(check(&store), Ok(Checked::Faulty(1)));
    store[7] = 1;
    assert_eq!(check(&store), Ok(Checked::Faulty(0)));
}
