//! Which calls of the store are refused, with which number, and that all lent
//! memory then holds what it held; a conversion is one of them. 01's order, and
//! 02's before it, is held to by every set of faults that a call can have at
//! once: the first in the order is answered.

mod ways;

use calls::FAULT;
use inputs::Random;
use lagunedo::Refusal;
use second::record::{Lead, CLEAR, LEAD, OLD, RECORD};
use ways::{agree, Call, Memory, What};

const SEED: u64 = 0x0057_04eb_ad00;

/// The store's calls; a step with its job lent is made where a step is.
const WHATS: [What; 7] = [
    What::Check,
    What::Read,
    What::Add,
    What::Revise,
    What::Remove,
    What::Step,
    What::AddXts,
];

/// Each with its order.
fn orders() -> impl Iterator<Item = (What, &'static [u32])> {
    let all = calls::ORDER.into_iter();
    all.filter(|(what, _)| WHATS.contains(what))
}

/// The sheet that is asked for, and the slot where it stands.
const SHEET: u32 = 305;
const SLOT: usize = 2;

/// Numbers of slots that nobody asks for.
const OTHERS: u32 = 100;

/// The fields of a sheet of 20 bytes.
fn sheet(sheet: u32, revision: u32, mark: u8) -> Lead {
    Lead {
        sheet,
        revision,
        mark,
        length: 20,
    }
}

/// Changes the fields of a slot, and no other byte of it.
fn change(store: &mut [u8], slot: usize, change: impl FnOnce(&mut Lead)) {
    let record = &mut store[slot * RECORD..][..RECORD];
    let mut lead = Lead::of(record);
    change(&mut lead);
    lead.put(record);
}

/// A call that is not refused, and its memory: five slots, of which slot 1 is
/// free. For add, nobody has the sheet.
fn good(what: What, random: &mut Random) -> (Call, Memory) {
    let mut store = vec![0; 5 * RECORD];
    for (number, slot) in (OTHERS..).zip(store.chunks_mut(RECORD)) {
        let lead = sheet(number, 2, CLEAR);
        lead.put(slot);
        random.fill(&mut slot[LEAD..lead.text_end()]);
    }
    store[RECORD..2 * RECORD].fill(0);
    if ![What::Add, What::AddXts].contains(&what) {
        change(&mut store, SLOT, |lead| lead.sheet = SHEET);
    }
    let call = Call {
        sheet: SHEET,
        seen: 2,
        number: random.word(),
        ..Call::of(what)
    };
    let memory = Memory {
        old_key: random.bytes(48),
        new_key: random.bytes(64),
        xts_key: random.bytes(32),
        data: vec![],
        store,
        text: random.bytes(20),
        block: [0; 16],
        place: 3,
        words: [(); 6].map(|()| random.word() as u32),
    };
    (call, memory)
}

/// How many ways there are to bring about a number.
const WAYS: usize = 4;

/// Brings about the number's fault, whatever other faults there are, provided
/// that faults later in the order were brought about before.
fn spoil(call: &mut Call, memory: &mut Memory, number: u32, way: usize) {
    let store = &mut memory.store;
    match number {
        1 => {
            let lengths = [(47, 64), (48, 65), (0, 0), (32, 16)][way];
            memory.old_key.resize(lengths.0, 7);
            memory.new_key.resize(lengths.1, 7);
        }
        4 => {
            let length = store.len();
            let length = [length - 1, length + 1, length + 2_111, 1_025 * RECORD][way];
            store.resize(length, 0);
        }
        5 => call.sheet = 0,
        6 if call.what == What::AddXts => {
            memory.text.resize([2_097, 4_096, 65_535, 65_536][way], 7);
        }
        6 => memory.text.resize([15, 2_097, 0, 65_552][way], 7),
        7 => {
            for (number, slot) in (OTHERS..).zip(0..store.len() / RECORD) {
                change(store, slot, |lead| lead.sheet = number);
            }
        }
        8 => {
            let change = [1, u32::MAX, 65_536, 0x8000_0000][way];
            call.seen = call.seen.wrapping_add(change);
        }
        9 => {
            change(store, SLOT, |lead| lead.revision = 4_294_967_295);
            call.seen = 4_294_967_295;
        }
        10 => change(store, 1, |lead| lead.sheet = OTHERS + 1),
        11 => change(store, SLOT, |lead| lead.sheet = SHEET),
        12 => {
            let (at, byte) = [(6, 3), (7, 1), (15, 255), (RECORD - 1, 1)][way];
            store[SLOT * RECORD + at] = byte;
        }
        13 => memory.text.truncate([19, 0, 1, 16][way]),
        15 => memory.xts_key.resize([31, 48, 0, 65][way], 7),
        16 => memory.text.resize([15, 65_537, 0, 65_552][way], 7),
        _ => unreachable!("no call is refused with {number}"),
    }
}

/// Every set of a call's faults, each in several ways. Returns how often each
/// number was answered.
fn every_set(what: What, order: &[u32]) -> [usize; 18] {
    let mut answered = [0; 18];
    for set in 0..1_usize << order.len() {
        for way in 0..WAYS {
            let seed = SEED + (set * WAYS + way) as u64;
            let mut random = Random::new(seed);
            let (mut call, mut memory) = good(what, &mut random);
            let faults = (0..order.len()).filter(|n| set >> n & 1 == 1);
            let faults: Vec<u32> = faults.map(|n| order[n]).collect();
            for (n, number) in faults.iter().enumerate().rev() {
                spoil(&mut call, &mut memory, *number, (way + n) % WAYS);
            }
            let wanted = faults.first().copied().unwrap_or(0);
            let name = || format!("seed {seed:#x}, faults {faults:?}, way {way}");
            let (number, after) = agree(&call, &memory, set + way, &name);
            assert_eq!(number, wanted, "{what:?}, {}", name());
            let refused = wanted != 0;
            assert_eq!(after == memory, refused, "{what:?}, {}", name());
            answered[number as usize] += 1;
        }
    }
    answered
}

/// A fault of place n in the order is answered where none before it is there,
/// with or without each of those behind it.
#[test]
fn order() {
    let mut tried = 0;
    for (what, order) in orders() {
        tried += 1;
        let mut wanted = [0; 18];
        wanted[0] = WAYS;
        for (n, number) in order.iter().enumerate() {
            wanted[*number as usize] = WAYS << (order.len() - 1 - n);
        }
        assert_eq!(every_set(what, order), wanted, "{what:?}");
    }
    assert_eq!(tried, WHATS.len());
}

/// A key of every length but the two, in the place of either.
#[test]
fn keys() {
    for (what, order) in orders() {
        if !order.contains(&1) {
            continue;
        }
        let mut refused = 0;
        for length in (0..=70).chain([80, 96, 112, 128, 2_112]) {
            for old in [false, true] {
                let mut random = Random::new(SEED + length as u64);
                let (call, mut memory) = good(what, &mut random);
                let key = if old {
                    &mut memory.old_key
                } else {
                    &mut memory.new_key
                };
                *key = random.bytes(length);
                let name = || format!("key of {length} bytes, old {old}");
                let (number, _) = agree(&call, &memory, length, &name);
                let wanted = u32::from(length != 48 && length != 64);
                assert_eq!(number, wanted, "{what:?}, {}", name());
                refused += number;
            }
        }
        assert_eq!(refused, 2 * (76 - 2), "{what:?}");
    }
}

/// Stores of one slot too many, and of so many that the lowest 20 bits of
/// their length are those of a store of five slots.
#[test]
fn sizes() {
    for what in [What::Check, What::Add] {
        for slots in [1_025, (1 << 14) + 5] {
            let (call, mut memory) = good(what, &mut Random::new(SEED));
            memory.store.resize(slots * RECORD, 0);
            let name = || format!("{slots} slots");
            let (number, after) = agree(&call, &memory, slots, &name);
            assert_eq!(number, 4, "{what:?}, {}", name());
            assert!(after == memory, "{what:?}, {}", name());
        }
    }
}

/// Every length of a text, from none to beyond the longest, and some of which
/// the lower bits are those of a text that is taken.
#[test]
fn texts() {
    let lengths = || {
        (0..=20)
            .chain(2_090..=2_100)
            .chain([4_096, 65_535, 65_536, 65_552])
            .chain([(1 << 20) + 16, (1 << 24) + 2_096])
    };
    for what in [What::Add, What::Revise, What::AddXts] {
        for length in lengths() {
            let mut random = Random::new(SEED + length as u64);
            let (call, mut memory) = good(what, &mut random);
            memory.text = random.bytes(length);
            let name = || format!("text of {length} bytes");
            let (number, _) = agree(&call, &memory, length, &name);
            let wanted = match length {
                16..=2_096 => 0,
                ..16 | 65_537.. if what == What::AddXts => 16,
                _ => 6,
            };
            assert_eq!(number, wanted, "{what:?}, {}", name());
        }
    }
}

/// Every length of a buffer around that of the text, for texts of several.
#[test]
fn buffers() {
    for length in [16_u16, 17, 20, 32, 255, 256, 257, 2_095, 2_096] {
        let around = usize::from(length) - 2..=usize::from(length) + 2;
        for buffer in (0..=3).chain(around).chain([4_000]) {
            let mut random = Random::new(SEED + buffer as u64);
            let (call, mut memory) = good(What::Read, &mut random);
            let slot = &mut memory.store[SLOT * RECORD..][..RECORD];
            let mut lead = Lead::of(slot);
            lead.length = length;
            lead.put(slot);
            slot[LEAD..].fill(0);
            random.fill(&mut slot[LEAD..lead.text_end()]);
            memory.text = random.bytes(buffer);
            let name = || format!("text of {length} bytes, buffer of {buffer}");
            let (number, after) = agree(&call, &memory, buffer, &name);
            let wanted = if buffer < usize::from(length) { 13 } else { 0 };
            assert_eq!(number, wanted, "{}", name());
            if number == 0 {
                let text = &memory.store[SLOT * RECORD + 16..][..usize::from(length)];
                assert_eq!(after.text[..text.len()], *text, "{}", name());
                assert_eq!(after.text[text.len()..], memory.text[text.len()..]);
                assert_eq!(after.words[..2], [u32::from(length), 2], "{}", name());
            }
        }
    }
}

/// A byte of a slot with a text of 20 bytes that is not as tabled, and what
/// it is changed to.
const UNSOUND: [(usize, u8); 15] = [
    (4, 0),
    (6, 3),
    (6, 128),
    (7, 1),
    (8, 15),
    (8, 0),
    (9, 9),
    (9, 255),
    (12, 1),
    (13, 16),
    (14, 255),
    (15, 128),
    (36, 1),
    (1_000, 255),
    (2_111, 1),
];

/// Every field out of its range in turn, in every used slot: check names the
/// slot and keeps the counts; the sheet is neither read nor revised; a step
/// passes over it, whatever its mark; it is removed all the same.
#[test]
fn unsound() {
    for slot in [0, 2, 3, 4] {
        for (n, (at, byte)) in UNSOUND.into_iter().enumerate() {
            for (what, wanted) in [
                (What::Check, FAULT),
                (What::Read, 12),
                (What::Revise, 12),
                (What::Step, 0),
                (What::Remove, 0),
            ] {
                let mut random = Random::new(SEED + n as u64);
                let (mut call, mut memory) = good(what, &mut random);
                let here = &mut memory.store[slot * RECORD..][..RECORD];
                let mark = (n % 3) as u8;
                Lead {
                    mark,
                    ..Lead::of(here)
                }
                .put(here);
                here[at] = byte;
                call.sheet = Lead::of(here).sheet;
                call.seen = Lead::of(here).revision;
                memory.place = slot as u64;
                let name = || format!("slot {slot}, byte {at} is {byte}");
                let (number, after) = agree(&call, &memory, n, &name);
                assert_eq!(number, wanted, "{what:?}, {}", name());
                let mut kept = memory.clone();
                match what {
                    What::Check => kept.words[0] = slot as u32,
                    What::Step => {
                        kept.place += 1;
                        kept.words[0] = 2;
                    }
                    What::Remove => kept.store[slot * RECORD..][..RECORD].fill(0),
                    _ => (),
                }
                assert!(after == kept, "{what:?}, {}", name());
            }
        }
    }
}

/// A free slot with a byte set: a fault for check alone.
#[test]
fn free_but_for_a_byte() {
    for at in [4, 5, 6, 7, 8, 9, 10, 11, 12, 15, 16, 36, 1_000, 2_111] {
        for (what, wanted, word) in [
            (What::Check, FAULT, 1),
            (What::Step, 0, 1),
            (What::Add, 0, 1),
        ] {
            let (call, mut memory) = good(what, &mut Random::new(SEED + at as u64));
            memory.store[RECORD + at] = 2;
            memory.place = 1;
            let name = || format!("byte {at}");
            let (number, after) = agree(&call, &memory, at, &name);
            assert_eq!((number, after.words[0]), (wanted, word), "{what:?}, {at}");
            assert_eq!(after.store != memory.store, what == What::Add);
        }
    }
}

/// Makes a slot faulty: unsound, or used and with the number of slot 0.
const FAULTS: [fn(&mut [u8]); 2] = [|slot| slot[7] = 1, |slot| sheet(OTHERS, 1, OLD).put(slot)];

/// Check answers the lower of two faults, of which either may be a number
/// that stands twice, and keeps the counts; or else refuses the store's size.
#[test]
fn lowest_fault() {
    let mut compared = 0;
    for low in 1..5 {
        for high in low..5 {
            for n in 0..4 {
                let (call, mut memory) = good(What::Check, &mut Random::new(SEED + n));
                for (slot, fault) in [(low, n % 2), (high, n / 2)] {
                    FAULTS[fault as usize](&mut memory.store[slot * RECORD..][..RECORD]);
                }
                let name = || format!("slots {low} and {high}, {n}");
                let (number, after) = agree(&call, &memory, n as usize, &name);
                let mut wanted = memory.clone();
                wanted.words[0] = low as u32;
                assert_eq!(number, FAULT, "{}", name());
                assert!(after == wanted, "{}", name());
                memory.store.push(0);
                let (number, after) = agree(&call, &memory, n as usize, &name);
                assert_eq!(number, 4, "{}", name());
                assert!(after == memory, "{}", name());
                compared += 2;
            }
        }
    }
    assert_eq!(compared, 10 * 4 * 2);
}

/// Two slots with one number: every call takes the lower, sound or not, and
/// keeps the upper.
#[test]
fn lower_of_two() {
    for (unsound, number) in [(false, 0), (true, 12)] {
        for (what, wanted) in [
            (What::Read, number),
            (What::Revise, number),
            (What::Remove, 0),
            (What::Add, 11),
        ] {
            let (mut call, mut memory) = good(what, &mut Random::new(SEED));
            call.sheet = OTHERS;
            change(&mut memory.store, 3, |lead| {
                (lead.sheet, lead.revision) = (OTHERS, 9)
            });
            memory.store[7] = u8::from(unsound);
            let name = || format!("unsound {unsound}");
            let (number, after) = agree(&call, &memory, 0, &name);
            assert_eq!(number, wanted, "{what:?}, {}", name());
            assert!(after.store[RECORD..] == memory.store[RECORD..], "{what:?}");
            if (what, number) == (What::Read, 0) {
                assert_eq!(after.text, memory.store[16..36]);
            }
        }
    }
}

/// The names of the numbers.
#[test]
fn names() {
    let names = [
        Refusal::StoreLength,
        Refusal::SheetZero,
        Refusal::TextLength,
        Refusal::NoSheet,
        Refusal::OtherRevision,
        Refusal::LastRevision,
        Refusal::NoFreeSlot,
        Refusal::SheetPresent,
        Refusal::SlotUnsound,
        Refusal::BufferLength,
        Refusal::LengthChanged,
        Refusal::XtsKeyLength,
        Refusal::UnitLength,
        Refusal::BlockNotAlone,
    ];
    assert!(names.map(Refusal::number).into_iter().eq(4..=17));
    assert_eq!(lagunedo::FAULT, FAULT);
}
