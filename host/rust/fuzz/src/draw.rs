//! The call that a script asks for next, on what the memory now holds.

use crate::script::{Lengths, Script, DATA, LONG_MESSAGE, MESSAGE, TEXT, UNIT};
use calls::What::{
    Add, AddXts, AesDecipher, AesEncipher, Check, Eme2Decipher, Eme2Encipher, JobStep, Read,
    Remove, Revise, Step, XtsBlock, XtsDecipher, XtsEncipher,
};
use calls::{Call, What};
use second::record::{Lead, RECORD};

/// The longest key that is lent.
pub const KEY_MOST: usize = 80;

/// How many copies of the rekeying job a script runs.
pub const COPIES: usize = 3;

/// How often each call is asked for. The store's are the more eventful, and
/// zeros, which a fuzzer likes, ask for one of them.
const FREQUENT: [What; 22] = [
    Read,
    Read,
    Add,
    Add,
    Revise,
    Revise,
    Remove,
    Check,
    Step,
    Step,
    JobStep,
    JobStep,
    AesEncipher,
    AesDecipher,
    Eme2Encipher,
    Eme2Decipher,
    XtsEncipher,
    XtsDecipher,
    XtsBlock,
    XtsBlock,
    AddXts,
    AddXts,
];

/// Numbers of units at the ends of their bytes.
const NUMBERS: [u64; 4] = [0, 255, 1 << 32, u64::MAX];

/// Places that no store has. Multiplied by a slot's bytes, the last five leave
/// 64 bits and come back to 0 or little above it.
const FAR: [u64; 7] = [
    1 << 32,
    u64::MAX,
    1 << 63,
    1 << 58,
    (1 << 58) + 1,
    u64::MAX / RECORD as u64 + 1,
    u64::MAX / RECORD as u64 + 2,
];

/// A call, and how long each byte string is that is lent to it.
#[derive(Debug)]
pub struct Drawn {
    pub call: Call,
    pub old_key: usize,
    pub new_key: usize,
    /// The old key is lent as the new one too.
    pub one_key: bool,
    pub xts_key: usize,
    pub data: usize,
    pub text: usize,
    /// The front of the store that is lent.
    pub store: usize,
    /// Which copy of the job a step is made for.
    pub copy: usize,
    /// Where that copy is put before, if it is.
    pub place: Option<u64>,
}

/// The next call, where the keys are as a rule of these lengths.
pub fn drawn(script: &mut Script, keys: [usize; 2], store: &[u8]) -> Drawn {
    let what = FREQUENT[usize::from(script.byte()) % FREQUENT.len()];
    let mut drawn = usual(script, what, keys, store.len());
    match what {
        AesEncipher | AesDecipher => draw_block(script, &mut drawn),
        Eme2Encipher | Eme2Decipher => {
            drawn.text = mostly(script, &MESSAGE);
            drawn.data = script.length(&DATA);
        }
        XtsEncipher | XtsDecipher | XtsBlock => {
            draw_unit(script, &mut drawn);
            drawn.text = mostly(script, &UNIT);
            drawn.call.k = block(script, drawn.text);
        }
        Check => (),
        Step | JobStep => draw_step(script, &mut drawn),
        Read | Add | Revise | Remove => draw_by_sheet(script, &store[..drawn.store], &mut drawn),
        AddXts => {
            draw_unit(script, &mut drawn);
            drawn.call.sheet = sheet(script, Add, &store[..drawn.store]);
            drawn.text = mostly(script, &TEXT);
        }
    }
    drawn
}

/// A length of these, or now and then one at the end of the longest.
fn mostly(script: &mut Script, lengths: &Lengths) -> usize {
    if script.chance(255) {
        script.length(lengths)
    } else {
        script.length(&LONG_MESSAGE)
    }
}

/// Mostly the usual keys and the whole store. One call in four gets others: a
/// key of any length, a store that lacks bytes or whole slots, or one key for
/// both; several at once, so that the order of refusals shows.
fn usual(script: &mut Script, what: What, [old, new]: [usize; 2], whole: usize) -> Drawn {
    let choice = script.byte();
    let odd = |bit: u8| choice >= 192 && choice & bit != 0;
    let old_key = if odd(1) { key_length(script) } else { old };
    let new_key = if odd(2) { key_length(script) } else { new };
    let mut store = whole;
    if odd(4) {
        store -= script.below(store + 1);
    }
    if odd(8) {
        store -= usize::from(script.byte()) % (store / RECORD + 1) * RECORD;
    }
    Drawn {
        call: Call::of(what),
        old_key,
        new_key: if odd(16) { old_key } else { new_key },
        one_key: odd(16),
        xts_key: 0,
        data: 0,
        text: 0,
        store,
        copy: 0,
        place: None,
    }
}

fn key_length(script: &mut Script) -> usize {
    usize::from(script.byte()) % (KEY_MOST + 1)
}

fn draw_block(script: &mut Script, drawn: &mut Drawn) {
    let choice = script.byte();
    drawn.text = match choice {
        ..208 => 16,
        _ => usize::from(script.byte()) % 33,
    };
    drawn.old_key = match choice {
        224.. => key_length(script),
        _ if choice % 2 == 1 => 16,
        _ => 32,
    };
}

/// The unit's key and number.
fn draw_unit(script: &mut Script, drawn: &mut Drawn) {
    let choice = script.byte();
    drawn.xts_key = match choice {
        240.. => key_length(script),
        _ if choice % 2 == 1 => 32,
        _ => 64,
    };
    drawn.call.number = match script.byte() {
        choice @ ..128 => NUMBERS[usize::from(choice) % NUMBERS.len()],
        _ => script.number(8),
    };
}

/// A block of a unit of so many bytes: mostly one that is there, often on
/// either side of the last that can be read alone; any.
fn block(script: &mut Script, length: usize) -> u64 {
    let full = length / 16;
    match script.byte() {
        ..128 => script.below(full + 1) as u64,
        128..144 => full.wrapping_sub(2) as u64,
        144..192 => full.wrapping_sub(1) as u64,
        192..224 => full as u64,
        224..240 => full as u64 + 1,
        _ => script.number(8),
    }
}

fn draw_by_sheet(script: &mut Script, store: &[u8], drawn: &mut Drawn) {
    let call = &mut drawn.call;
    call.sheet = sheet(script, call.what, store);
    if call.what == Remove {
        return;
    }
    let mut leads = store.chunks_exact(RECORD).map(Lead::of);
    let found = leads.find(|lead| lead.sheet == call.sheet);
    let (revision, length) = found.map_or((0, 0), |lead| (lead.revision, lead.length));
    if call.what == Revise {
        call.seen = seen(script, revision);
    }
    drawn.text = match call.what {
        Read => buffer(script, length.into()),
        _ => script.length(&TEXT),
    };
}

/// A small number, as most sheets have; 0; a slot's number, as it stands or
/// with one bit changed; any. An added sheet should mostly be a new one.
fn sheet(script: &mut Script, what: What, store: &[u8]) -> u32 {
    let small = if what == Add { 176 } else { 48 };
    let choice = script.byte();
    if choice < small {
        return u32::from(choice) % 7 + 1;
    }
    if choice < small + 8 {
        return 0;
    }
    let slots = store.len() / RECORD;
    if choice >= 224 || slots == 0 {
        return script.number(4) as u32;
    }
    let slot = script.below(slots);
    let stored = Lead::of(&store[slot * RECORD..]).sheet;
    match choice {
        ..208 => stored,
        _ => stored ^ 1 << (choice % 32),
    }
}

/// Mostly the stored one; its neighbours; one that agrees with it in a half,
/// either of them, or has the halves exchanged; any.
fn seen(script: &mut Script, stored: u32) -> u32 {
    match script.byte() {
        ..168 => stored,
        168..184 => stored.wrapping_add(1),
        184..200 => stored.wrapping_sub(1),
        200..208 => stored.wrapping_add(65_536),
        208..216 => stored & 0xffff,
        216..224 => stored & !0xffff,
        224..232 => stored.rotate_left(16),
        _ => script.number(4) as u32,
    }
}

/// A buffer for a read: on both sides of the stored length, or any.
fn buffer(script: &mut Script, stored: usize) -> usize {
    match script.byte() {
        ..96 => stored,
        96..144 => stored + 1,
        144..192 => stored.saturating_sub(1),
        _ => script.length(&TEXT),
    }
}

/// For any copy of the job; now and then its place is put elsewhere.
fn draw_step(script: &mut Script, drawn: &mut Drawn) {
    let choice = script.byte();
    drawn.copy = usize::from(choice) % COPIES;
    drawn.place = match choice {
        ..144 => None,
        144..240 => Some(u64::from(script.byte()) % 8),
        240..248 => Some(FAR[usize::from(script.byte()) % FAR.len()]),
        _ => Some(script.number(8)),
    };
}
