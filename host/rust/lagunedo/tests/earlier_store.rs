//! The store of `vectors/store-before-order-1`, which was made when a revision
//! was bytes 4 and 5 alone: it means now what it meant then, and goes on from
//! there. Its texts and its listing are kept beside it, so that nothing here
//! rests on the second implementation alone.

mod ways;

use calls::FAULT;
use lagunedo::{read, Refusal};
use second::listing;
use second::record::{self, Lead, CLEAR, NEW, OLD, RECORD};
use std::fs;
use std::path::Path;
use ways::{agree, Call, Memory, What};

/// A sheet that had been removed when the store was kept.
const REMOVED: u32 = 310;

fn kept(file: &str) -> Vec<u8> {
    let folder = Path::new(env!("CARGO_MANIFEST_DIR")).join("../../../vectors");
    let file = folder.join("store-before-order-1").join(file);
    fs::read(&file).unwrap_or_else(|e| panic!("{}: {e}", file.display()))
}

fn text(sheet: u32) -> Vec<u8> {
    kept(&format!("texts/{sheet}"))
}

fn earlier() -> Memory {
    Memory {
        old_key: kept("old.key"),
        new_key: kept("new.key"),
        store: kept("store"),
        ..Memory::default()
    }
}

/// What the desk of that time listed, but for the counts: the slot, and the
/// fields of its lead.
fn rows() -> Vec<(usize, Lead)> {
    let listing = String::from_utf8(kept("listing")).expect("digits");
    let row = |line: &str| {
        let fields: Option<Vec<u32>> = line.split(' ').map(|word| word.parse().ok()).collect();
        let [slot, sheet, revision, mark, length] = fields?[..] else {
            return None;
        };
        let lead = Lead {
            sheet,
            revision,
            mark: mark as u8,
            length: length as u16,
        };
        Some((slot as usize, lead))
    };
    listing.lines().filter_map(row).collect()
}

/// Every sheet is read, at this revision: its text is the one that is kept.
fn reads_well(memory: &Memory, revision: impl Fn(&Lead) -> u32) {
    for (_, lead) in rows() {
        let wanted = text(lead.sheet);
        let mut buffer = vec![0; 2_096];
        let Memory {
            old_key,
            new_key,
            store,
            ..
        } = memory;
        let found = read(old_key, new_key, store, lead.sheet, &mut buffer);
        let found = found.unwrap_or_else(|e| panic!("sheet {}: {e:?}", lead.sheet));
        assert_eq!(found.revision, revision(&lead), "sheet {}", lead.sheet);
        assert_eq!(found.length as usize, wanted.len(), "sheet {}", lead.sheet);
        assert_eq!(buffer[..wanted.len()], wanted, "sheet {}", lead.sheet);
    }
}

/// What is kept has every mark, and revisions on both sides of each edge.
#[test]
fn what_is_kept() {
    let rows = rows();
    assert_eq!((rows.len(), kept("store").len()), (16, 18 * RECORD));
    for mark in [CLEAR, OLD, NEW] {
        let of_mark = || rows.iter().filter(|(_, lead)| lead.mark == mark);
        for revision in [2, 65_534, 65_535] {
            assert!(of_mark().any(|(_, lead)| lead.revision == revision));
        }
        for length in [16, 17, 2_096] {
            assert!(of_mark().any(|(_, lead)| lead.length == length));
        }
    }
    let keys = ["old.key", "new.key"].map(|key| kept(key).len());
    assert_eq!(keys, [48, 64]);
}

/// Its counts; and with any one of bytes 12 to 15 set, the slot, as before.
#[test]
fn checked() {
    let call = Call::of(What::Check);
    let (number, after) = agree(&call, &earlier(), 0, &|| "as kept".to_owned());
    assert_eq!((number, after.words), (0, [0, 16, 2, 3, 6, 7]));
    for (slot, lead) in rows() {
        for at in 12..16 {
            let mut damaged = earlier();
            damaged.store[slot * RECORD + at] = 1;
            let name = || format!("byte {at} of sheet {}", lead.sheet);
            let (number, after) = agree(&call, &damaged, 0, &name);
            assert_eq!((number, after.words[0]), (FAULT, slot as u32));
        }
    }
}

#[test]
fn listed() {
    assert_eq!(listing(&kept("store")).into_bytes(), kept("listing"));
}

#[test]
fn every_text_read() {
    let memory = earlier();
    reads_well(&memory, |lead| lead.revision);
    let found = read(
        &memory.old_key,
        &memory.new_key,
        &memory.store,
        REMOVED,
        &mut [0; 2_096],
    );
    assert_eq!(found, Err(Refusal::NoSheet));
}

/// Each sheet is revised from the revision that it was kept at, 65,535 too, and
/// every byte is the second's.
#[test]
fn revised() {
    let mut memory = earlier();
    for (slot, lead) in rows() {
        memory.text = text(lead.sheet);
        let call = Call {
            sheet: lead.sheet,
            seen: lead.revision,
            ..Call::of(What::Revise)
        };
        let name = || format!("sheet {}", lead.sheet);
        let (number, after) = agree(&call, &memory, 0, &name);
        assert_eq!((number, after.words[0]), (0, lead.revision + 1), "{call:?}");
        let (before, behind) = (slot * RECORD, (slot + 1) * RECORD);
        assert!(after.store[..before] == memory.store[..before], "{call:?}");
        assert!(after.store[behind..] == memory.store[behind..], "{call:?}");
        let (number, _) = agree(&call, &after, 0, &name);
        assert_eq!(number, 8, "made again: {call:?}");
        memory = after;
    }
    let revisions = memory.store.chunks(RECORD).map(record::revision);
    assert_eq!(revisions.filter(|r| *r == 65_536).count(), 3);
    reads_well(&memory, |lead| lead.revision + 1);
}

/// The job is run over it, and the old key lost: sheets, revisions and texts
/// are as they were, and a second copy of the job finds nothing to do.
#[test]
fn rekeyed() {
    let mut memory = earlier();
    let call = Call::of(What::Step);
    let slots = memory.store.len() / RECORD;
    for slot in 0..slots {
        let wanted = match Lead::of(&memory.store[slot * RECORD..]) {
            Lead { sheet: 0, .. } => 1,
            Lead { mark: NEW, .. } => 3,
            _ => 4,
        };
        let (number, after) = agree(&call, &memory, slot, &|| format!("slot {slot}"));
        assert_eq!((number, after.words[0]), (0, wanted), "slot {slot}");
        memory = after;
    }
    memory.old_key = vec![0; 48];
    reads_well(&memory, |lead| lead.revision);
    let line = |(slot, lead): &(usize, Lead)| {
        let Lead {
            sheet,
            revision,
            length,
            ..
        } = lead;
        format!("{slot} {sheet} {revision} {NEW} {length}\n")
    };
    let lines: String = rows().iter().map(line).collect();
    let counts = "used 16 free 2 clear 0 old 0 new 16\n";
    assert_eq!(listing(&memory.store), lines + counts);
    let before = memory.store.clone();
    memory.place = 0;
    for slot in 0..slots {
        (_, memory) = agree(&call, &memory, slot, &|| format!("slot {slot} again"));
    }
    assert!(memory.store == before, "a second copy of the job");
}
