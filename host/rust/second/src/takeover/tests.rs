//! A conversion is the add of what the unit deciphers to, after two refusals of
//! its own.

use crate::record::{LEAD, RECORD};
use crate::{add, add_xts, read, xts, Keys};
use inputs::Random;

const KEYS: Keys = Keys {
    old: &[1; 48],
    new: &[2; 64],
};

/// The unit of a text.
fn unit_of(key: &[u8], number: u64, text: &[u8]) -> Vec<u8> {
    let mut unit = text.to_vec();
    assert_eq!(xts(key, false, number, &mut unit), 0);
    unit
}

/// The store is that of an add of the text, and the text is read.
#[test]
fn adds_the_text() {
    let mut random = Random::new(1);
    for length in [16, 17, 31, 32, 33, 2_095, 2_096] {
        for key_length in [32, 64] {
            let [key, text] = [key_length, length].map(|n| random.bytes(n));
            let number = random.word();
            let unit = unit_of(&key, number, &text);
            let [mut ours, mut wanted] = [(); 2].map(|()| vec![0; 2 * RECORD]);
            assert_eq!(add_xts(&key, number, &unit, KEYS, &mut ours, 305), Ok(1));
            assert_eq!(add(KEYS, &mut wanted, 305, &text), Ok(1));
            assert!(ours == wanted, "{length} bytes");
            assert_ne!(ours[LEAD..][..length], unit);
            let mut buffer = vec![0; length];
            assert!(read(KEYS, &ours, 305, &mut buffer).is_ok());
            assert_eq!(buffer, text);
        }
    }
}

/// 15, 16, 1, 4, 5, 6, 11, 10: what is wrong is put right one by one, in that
/// order, and until then the store is kept.
#[test]
fn refusals_in_order() {
    let key = [3; 64];
    let texts = [15, 2_097, 2_096].map(|n| vec![0x55; n]);
    let [short, long, good] = &texts;
    let one = |sheet| {
        let mut store = vec![0; RECORD];
        assert_eq!(add(KEYS, &mut store, sheet, &[7; 16]), Ok(1));
        store
    };
    let ragged = vec![0; RECORD + 1];
    let wrong = Keys {
        old: &[1; 47],
        ..KEYS
    };
    for (xts_key, unit, keys, before, sheet, wanted) in [
        (&key[..48], short, wrong, &ragged, 0, Err(15)),
        (&key, short, wrong, &ragged, 0, Err(16)),
        (&key, long, wrong, &ragged, 0, Err(1)),
        (&key, long, KEYS, &ragged, 0, Err(4)),
        (&key, long, KEYS, &one(305), 0, Err(5)),
        (&key, long, KEYS, &one(305), 305, Err(6)),
        (&key, good, KEYS, &one(305), 305, Err(11)),
        (&key, good, KEYS, &one(305), 306, Err(10)),
        (&key[..32], good, KEYS, &vec![0; RECORD], 306, Ok(1)),
    ] {
        let mut store = before.clone();
        assert_eq!(add_xts(xts_key, 9, unit, keys, &mut store, sheet), wanted);
        assert_eq!(store == *before, wanted.is_err(), "{wanted:?}");
    }
}

/// The longest unit is refused by its length as a text.
#[test]
fn longest_unit() {
    let mut store = vec![0; RECORD];
    let unit = vec![1; 65_536];
    assert_eq!(add_xts(&[3; 32], 0, &unit, KEYS, &mut store, 7), Err(6));
}
