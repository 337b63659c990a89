//! Conversions: what a unit under XTS-AES deciphers to, added as a sheet. The
//! order of their refusals is in `store_refusals`, and traces with them are in
//! `traces`.

mod ways;

use inputs::Random;
use lagunedo::{add, add_xts, read, xts_encipher, Refusal};
use second::record::{LEAD, RECORD};
use ways::{agree, Call, Memory, What};

const SEED: u64 = 0x0715_add0;
const SHEET: u32 = 305;

/// A store of two free slots, keys, and the unit of a text.
fn of_text(text: &[u8], number: u64, random: &mut Random) -> Memory {
    let mut memory = Memory {
        old_key: random.bytes(48),
        new_key: random.bytes(64),
        store: vec![0; 2 * RECORD],
        text: text.to_vec(),
        ..Memory::default()
    };
    let length = random.pick(&[32, 64]);
    memory.xts_key = random.bytes(length);
    let done = xts_encipher(&memory.xts_key, number, &mut memory.text);
    assert_eq!(done, Ok(()));
    memory
}

fn converted(memory: &Memory, number: u64, name: &dyn Fn() -> String) -> (u32, Memory) {
    let call = Call {
        sheet: SHEET,
        number,
        ..Call::of(What::AddXts)
    };
    agree(&call, memory, memory.text.len(), name)
}

/// For every small length and the longest: the store is as an add of the text
/// leaves it, the unit is kept, and the text is read. Made again, the call is
/// refused.
#[test]
fn every_length() {
    for length in (16..=300).chain(2_030..=2_096) {
        let mut random = Random::new(SEED + length as u64);
        let number = random.pick(&[0, 255, 1 << 32, u64::MAX, 12_345]);
        let text = random.bytes(length);
        let memory = of_text(&text, number, &mut random);
        let name = || format!("text of {length} bytes, unit {number}");
        let (answer, after) = converted(&memory, number, &name);
        assert_eq!((answer, after.words[0]), (0, 1), "{}", name());
        assert!(after.text == memory.text, "the unit changed: {}", name());

        let mut by_add = memory.store.clone();
        let (old, new) = (&memory.old_key, &memory.new_key);
        assert_eq!(add(old, new, &mut by_add, SHEET, &text), Ok(1));
        assert!(after.store == by_add, "{}", name());
        assert_ne!(after.store[LEAD..][..length], memory.text, "{}", name());

        let mut buffer = vec![0; length];
        let found = read(old, new, &after.store, SHEET, &mut buffer).expect("a sheet");
        assert_eq!((found.length as usize, found.revision), (length, 1));
        assert!(buffer == text, "{}", name());

        let (answer, again) = converted(&after, number, &name);
        assert_eq!(answer, 11, "{}", name());
        assert!(again == after, "{}", name());
    }
}

/// A unit above 2,096 bytes is refused in the place of the text's length, and
/// kept.
#[test]
fn long_units() {
    for length in [2_097, 2_112, 4_096, 10_001, 65_535, 65_536] {
        let mut random = Random::new(SEED + length as u64);
        let text = random.bytes(length);
        let memory = of_text(&text, 7, &mut random);
        let name = || format!("unit of {length} bytes");
        let (answer, after) = converted(&memory, 7, &name);
        assert_eq!(answer, 6, "{}", name());
        assert!(after == memory, "{}", name());
    }
}

/// A wrong key or number is not noticed: other bytes are stored.
#[test]
fn wrong_key_or_number() {
    let mut random = Random::new(SEED);
    let text = random.bytes(100);
    let memory = of_text(&text, 7, &mut random);
    let mut wrong = memory.clone();
    wrong.xts_key[0] ^= 1;
    for (memory, number, right) in [(&memory, 7, true), (&memory, 8, false), (&wrong, 7, false)] {
        let (answer, after) = converted(memory, number, &|| format!("unit {number}"));
        assert_eq!(answer, 0);
        let mut buffer = [0; 100];
        let (old, new) = (&memory.old_key, &memory.new_key);
        assert!(read(old, new, &after.store, SHEET, &mut buffer).is_ok());
        assert_eq!(buffer[..] == text, right);
    }
}

/// Rust allows it that what is only read is lent twice: one key for all, and as
/// the unit too.
#[test]
fn key_as_unit() {
    let key = Random::new(SEED).bytes(64);
    let mut store = vec![0; RECORD];
    assert_eq!(add_xts(&key, 1, &key, &key, &key, &mut store, 7), Ok(1));
    let again = add_xts(&key, 1, &key, &key, &key, &mut store, 7);
    assert_eq!(again, Err(Refusal::SheetPresent));
}
