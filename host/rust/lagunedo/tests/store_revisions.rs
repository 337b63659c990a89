//! 02, order 1: the revision in two halves. Calls cross 65,535 and end at the
//! last; a revision is compared whole; bytes 12 to 15 of the lead are 0.

mod ways;

use calls::FAULT;
use second::record::{written, Lead, CLEAR, NEW, OLD, RECORD};
use second::{listing, Keys};
use ways::{agree, Call, Memory, What};

const SHEET: u32 = 305;
const STORED: &[u8] = b"PRESS 2 BLUE, DRY 20 MIN";

/// Revisions at the ends of either half.
const REVISIONS: [u32; 14] = [
    1,
    2,
    65_534,
    65_535,
    65_536,
    65_537,
    131_071,
    131_072,
    0x0403_0201,
    0x8000_0000,
    0xffff_0000,
    0xffff_0001,
    4_294_967_294,
    4_294_967_295,
];

/// A store of one slot with the sheet at a revision, under a mark.
fn memory(revision: u32, mark: u8) -> Memory {
    let mut memory = Memory {
        old_key: (1..=48).collect(),
        new_key: (101..=164).collect(),
        text: vec![7; 40],
        ..Memory::default()
    };
    memory.store = written(SHEET, revision, mark, STORED, keys(&memory));
    memory
}

fn keys(memory: &Memory) -> Keys<'_> {
    Keys {
        old: &memory.old_key,
        new: &memory.new_key,
    }
}

/// A call on the sheet: what every way returns and leaves.
fn made(what: What, seen: u32, before: &Memory) -> (u32, Memory) {
    let call = Call {
        sheet: SHEET,
        seen,
        ..Call::of(what)
    };
    let revision = Lead::of(&before.store).revision;
    agree(&call, before, 0, &|| format!("at revision {revision}"))
}

/// The sheet is read back, and the listing prints its revision whole.
fn found(before: &Memory, revision: u32, text: &[u8]) {
    let (number, after) = made(What::Read, 0, before);
    assert_eq!(
        (number, &after.words[..2]),
        (0, &[text.len() as u32, revision][..])
    );
    assert_eq!(after.text[..text.len()], *text, "at revision {revision}");
    let Lead { mark, length, .. } = Lead::of(&before.store);
    let line = format!("0 {SHEET} {revision} {mark} {length}\n");
    assert!(listing(&before.store).starts_with(&line), "{line}");
}

/// From a revision to the one before `end`, one by one: each is found, has the
/// bytes of a record at that revision, and is refused when it is made again.
fn in_a_row(mut memory: Memory, end: u32) -> Memory {
    for seen in Lead::of(&memory.store).revision..end {
        let (number, after) = made(What::Revise, seen, &memory);
        assert_eq!((number, after.words[0]), (0, seen + 1));
        let record = written(SHEET, seen + 1, NEW, &memory.text, keys(&memory));
        assert!(after.store == record, "revision {}", seen + 1);
        found(&after, seen + 1, &memory.text);
        let (number, kept) = made(What::Revise, seen, &after);
        assert_eq!(number, 8, "{seen} named again");
        assert!(kept == after, "{seen} named again");
        memory = after;
    }
    memory
}

#[test]
fn across_65535() {
    for mark in [CLEAR, OLD, NEW] {
        let after = in_a_row(memory(65_533, mark), 65_537);
        let lead = [49, 1, 0, 0, 1, 0, NEW, 0, 40, 0, 1, 0, 0, 0, 0, 0];
        assert_eq!(after.store[..16], lead, "both halves, by hand");
    }
}

#[test]
fn last_revision() {
    let after = in_a_row(memory(4_294_967_293, OLD), 4_294_967_295);
    let (number, kept) = made(What::Revise, 4_294_967_295, &after);
    assert_eq!(number, 9);
    assert!(kept == after, "refused with 9");
}

/// A step converts a sheet at any revision and keeps both halves; the text is
/// then under the new key, in the record that has them.
#[test]
fn rekeyed() {
    for revision in REVISIONS {
        for (mark, outcome) in [(CLEAR, 4), (OLD, 4), (NEW, 3)] {
            let before = memory(revision, mark);
            found(&before, revision, STORED);
            let (number, after) = made(What::Step, 0, &before);
            assert_eq!((number, after.words[0], after.place), (0, outcome, 1));
            let record = written(SHEET, revision, NEW, STORED, keys(&before));
            assert!(after.store == record, "{revision} under mark {mark}");
            found(&after, revision, STORED);
        }
    }
}

/// Where one half agrees, or the halves are exchanged, it is another revision.
#[test]
fn compared_whole() {
    let mut compared = 0;
    for stored in REVISIONS {
        let before = memory(stored, NEW);
        let (low, high) = (stored & 0xffff, stored >> 16);
        let others = [
            0,
            low,
            high,
            high << 16,
            low << 16 | high,
            stored ^ 1,
            stored ^ 0x8000,
            stored ^ 0x1_0000,
            stored ^ 0x8000_0000,
        ];
        for seen in others.into_iter().filter(|seen| *seen != stored) {
            let (number, after) = made(What::Revise, seen, &before);
            assert_eq!(number, 8, "{seen} at {stored}");
            assert!(after == before, "{seen} at {stored}");
            compared += 1;
        }
    }
    assert!(compared > 100, "{compared}");
}

/// Each of bytes 12 to 15 set alone: 12, damaged, a fault; removed all the
/// same.
#[test]
fn behind_the_halves() {
    for revision in REVISIONS {
        for mark in [CLEAR, OLD, NEW] {
            for (at, byte) in [(12, 1), (13, 255), (14, 16), (15, 128)] {
                let mut before = memory(revision, mark);
                before.store[at] = byte;
                for (what, wanted, word) in [
                    (What::Check, FAULT, 0),
                    (What::Read, 12, 0),
                    (What::Revise, 12, 0),
                    (What::Add, 11, 0),
                    (What::Step, 0, 2),
                    (What::Remove, 0, 0),
                ] {
                    let (number, after) = made(what, revision, &before);
                    let name = || format!("{what:?}, byte {at}, at {revision}");
                    assert_eq!((number, after.words[0]), (wanted, word), "{}", name());
                    let freed = after.store == [0; RECORD];
                    assert_eq!(freed, what == What::Remove, "{}", name());
                    assert!(freed || after.store == before.store, "{}", name());
                }
            }
        }
    }
}

/// The revision is 0, and the slot unsound, only where both halves are 0.
#[test]
fn no_revision() {
    for (low, high, sound) in [
        ([0, 0], [0, 0], false),
        ([1, 0], [0, 0], true),
        ([0, 1], [0, 0], true),
        ([0, 0], [1, 0], true),
        ([0, 0], [0, 1], true),
        ([255, 255], [255, 255], true),
    ] {
        let mut before = memory(1, CLEAR);
        before.store[4..6].copy_from_slice(&low);
        before.store[10..12].copy_from_slice(&high);
        let (number, _) = made(What::Check, 0, &before);
        assert_eq!(number == 0, sound, "{low:?} {high:?}");
        let (number, _) = made(What::Read, 0, &before);
        assert_eq!(number == 0, sound, "{low:?} {high:?}");
    }
}
