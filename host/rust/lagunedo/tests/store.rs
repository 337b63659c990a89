//! Each call of the store on the last slot of the largest one, with no other
//! to choose. Random traces of calls are the fuzz body's (`host/rust/fuzz`),
//! and those of demand 3 in `traces`.

mod ways;

use calls::FAULT;
use second::record::{Lead, CLEAR, LEAD, RECORD};
use ways::{agree, Call, Memory, What};

/// The most slots of all.
const LARGEST: usize = 1_024;

/// Sheets 1 to 1,024 in clear, each at revision 9.
fn full() -> Vec<u8> {
    let mut store = vec![0; LARGEST * RECORD];
    for (sheet, slot) in (1_u32..).zip(store.chunks_mut(RECORD)) {
        let lead = Lead {
            sheet,
            revision: 9,
            mark: CLEAR,
            length: 20,
        };
        lead.put(slot);
        slot[LEAD..lead.text_end()].fill(sheet as u8);
    }
    store
}

#[test]
fn last_slot() {
    let last = (LARGEST - 1) * RECORD;
    let before = Memory {
        old_key: vec![1; 48],
        new_key: vec![2; 64],
        xts_key: vec![3; 32],
        store: full(),
        text: vec![7; 20],
        place: LARGEST as u64 - 1,
        ..Memory::default()
    };
    let mut freed = before.clone();
    freed.store[last..].fill(0);
    let mut repeated = before.clone();
    let first = Lead::of(&before.store);
    first.put(&mut repeated.store[last..]);
    let mut beyond = before.clone();
    beyond.place += 1;
    for (what, memory, number, word, changed) in [
        (What::Check, &before, 0, 0, false),
        (What::Check, &repeated, FAULT, LARGEST as u32 - 1, false),
        (What::Read, &before, 0, 20, false),
        (What::Read, &freed, 7, 0, false),
        (What::Add, &before, 11, 0, false),
        (What::Add, &repeated, 10, 0, false),
        (What::Add, &freed, 0, 1, true),
        (What::AddXts, &before, 11, 0, false),
        (What::AddXts, &repeated, 10, 0, false),
        (What::AddXts, &freed, 0, 1, true),
        (What::Revise, &before, 0, 10, true),
        (What::Revise, &freed, 7, 0, false),
        (What::Remove, &before, 0, 0, true),
        (What::Remove, &freed, 7, 0, false),
        (What::Step, &before, 0, 4, true),
        (What::Step, &freed, 0, 1, false),
        (What::Step, &beyond, 0, 0, false),
    ] {
        let (sheet, seen) = (LARGEST as u32, 9);
        let call = Call {
            sheet,
            seen,
            ..Call::of(what)
        };
        let (answer, after) = agree(&call, memory, 0, &|| "the last slot".to_owned());
        assert_eq!((answer, after.words[0]), (number, word), "{call:?}");
        assert!(after.store[..last] == memory.store[..last], "{call:?}");
        assert_eq!(after.store != memory.store, changed, "{call:?}");
    }
}
