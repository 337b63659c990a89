//! The bytes of a store: any bytes may stand in one, and those that the script
//! asks for are sound as often as not.

use crate::script::{Script, TEXT};
use inputs::Random;
use second::record::{Lead, LEAD, NEW, RECORD, SHORTEST};

/// 01: the most slots, and so the last one that is taken.
const SLOTS_MOST: usize = 1_024;

/// Bytes of the longest store that is lent.
pub const STORE_MOST: usize = (SLOTS_MOST + 1) * RECORD;

/// Slots that a script describes; in a larger store, its first and last.
const DESCRIBED: usize = 8;

pub fn drawn(script: &mut Script) -> Vec<u8> {
    let slots = slots(script);
    let mut store = vec![0; slots * RECORD];
    let between = match slots {
        ..=DESCRIBED => 0..0,
        _ => DESCRIBED / 2..slots - DESCRIBED / 2,
    };
    let filled = !between.is_empty() && script.byte() % 2 == 1;
    for (at, record) in store.chunks_mut(RECORD).enumerate() {
        if !between.contains(&at) {
            draw_slot(script, record);
        } else if filled {
            let sheet = at as u32 + 256;
            lead(sheet, 1, (at % 3) as u8, SHORTEST).put(record);
        }
    }
    store
}

/// One byte of the store changed, as by others than the calls.
pub fn damage(script: &mut Script, store: &mut [u8]) {
    if store.is_empty() {
        return;
    }
    let slot = script.below(store.len() / RECORD);
    damage_slot(script, &mut store[slot * RECORD..][..RECORD]);
}

/// Mostly 1 to 6 slots; rarely as many as 01 allows, or one more.
fn slots(script: &mut Script) -> usize {
    match script.byte() {
        ..8 => 0,
        choice @ ..253 => usize::from(choice) % 6 + 1,
        _ => match script.byte() {
            choice @ ..224 => usize::from(choice) % 41,
            choice => SLOTS_MOST + usize::from(choice) % 2,
        },
    }
}

/// Free, used, used and damaged, free and damaged, or without any sense under
/// a number that is asked for.
fn draw_slot(script: &mut Script, record: &mut [u8]) {
    match script.byte() % 16 {
        ..=3 => (),
        4..=11 => draw_used(script, record),
        12 | 13 => {
            draw_used(script, record);
            damage_slot(script, record);
        }
        14 => damage_slot(script, record),
        _ => {
            Random::new(script.number(2)).fill(record);
            let sheet = u32::from(script.byte() % 7 + 1);
            let lead = Lead::of(record);
            Lead { sheet, ..lead }.put(record);
        }
    }
}

/// Fields that are mostly as tabled, revisions small or beside an end of a half;
/// the text's own bytes may be any, since under a key any bytes are the
/// encipherment of some text.
fn draw_used(script: &mut Script, record: &mut [u8]) {
    let sheet = match script.byte() {
        choice @ ..200 => u32::from(choice) % 7 + 1,
        _ => script.number(4) as u32,
    };
    let revision = match script.byte() {
        choice @ ..128 => u32::from(choice) % 4 + 1,
        choice @ ..184 => u32::MAX - u32::from(choice) % 3,
        choice @ ..216 => 65_534 + u32::from(choice) % 4,
        choice @ ..224 => (u32::from(choice) % 4) << 16,
        choice @ ..240 => script.number(2) as u32 | (u32::from(choice) % 2) << 16,
        _ => script.number(4) as u32,
    };
    let mark = match script.byte() {
        choice @ ..248 => choice % (NEW + 1),
        choice => choice,
    };
    let lead = lead(sheet, revision, mark, script.length(&TEXT));
    lead.put(record);
    Random::new(script.number(1)).fill(&mut record[LEAD..lead.text_end()]);
}

fn lead(sheet: u32, revision: u32, mark: u8, length: usize) -> Lead {
    Lead {
        sheet,
        revision,
        mark,
        length: length as u16,
    }
}

/// In the lead, at the end of the text, at the end of the slot, anywhere.
fn damage_slot(script: &mut Script, record: &mut [u8]) {
    let end = Lead::of(record).text_end();
    let at = match script.byte() {
        choice @ ..128 => usize::from(choice) % LEAD,
        choice @ ..176 if end < RECORD => end - usize::from(choice) % 2,
        ..192 => RECORD - 1,
        _ => script.below(RECORD),
    };
    record[at] ^= script.byte() % 255 + 1;
}
