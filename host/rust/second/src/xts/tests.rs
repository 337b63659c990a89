//! XTS-AES against IEEE's published vectors, AES by hand, and itself the other
//! way.

use crate::{aes, double, xts, xts_block, BLOCK_NOT_ALONE, UNIT_LENGTH, XTS_KEY_LENGTH};
use inputs::{from_hex, lines, Random};

const NUMBERS: [u64; 5] = [0, 1, 255, 1 << 32, u64::MAX];

/// The result of a call that is not refused.
fn result(key: &[u8], back: bool, number: u64, unit: &[u8]) -> Vec<u8> {
    let mut unit = unit.to_vec();
    assert_eq!(xts(key, back, number, &mut unit), 0);
    unit
}

/// One block of AES that is not refused.
fn block(key: &[u8], back: bool, input: &[u8]) -> Vec<u8> {
    let mut block = input.to_vec();
    assert_eq!(aes(key, back, &mut block), 0);
    block
}

fn xored(a: &[u8], b: &[u8]) -> Vec<u8> {
    a.iter().zip(b).map(|(a, b)| a ^ b).collect()
}

/// The published vectors, both ways. The number is the front of the tweak.
#[test]
fn ieee() {
    let lines = lines("xts_ieee1619.txt");
    assert_eq!(lines.len(), 19);
    for line in lines {
        let [name, key, tweak, plain, enciphered] = &line[..] else {
            panic!("not five words: {line:?}");
        };
        let [key, tweak, plain, enciphered] = [key, tweak, plain, enciphered].map(|w| from_hex(w));
        assert_eq!(tweak[8..], [0; 8], "{name}");
        let number = u64::from_le_bytes(tweak[..8].try_into().expect("8 bytes"));
        assert_eq!(result(&key, false, number, &plain), enciphered, "{name}");
        assert_eq!(result(&key, true, number, &enciphered), plain, "{name}");
    }
}

/// Two blocks and a short one by AES alone, at a number whose eight bytes all
/// differ: the published vectors leave three of them 0.
#[test]
fn by_hand() {
    let mut random = Random::new(1);
    let [key, p] = [64, 37].map(|n| random.bytes(n));
    let number = from_hex("efcdab89674523010000000000000000");
    let t0 = block(&key[32..], false, &number);
    let t1 = double(t0.clone().try_into().expect("a block"));
    let t2 = double(t1);
    let masked = |t: &[u8], x: &[u8]| xored(&block(&key[..32], false, &xored(x, t)), t);
    let c0 = masked(&t0, &p[..16]);
    let cc = masked(&t1, &p[16..32]);
    let c1 = masked(&t2, &[&p[32..], &cc[5..]].concat());
    let c = [&c0, &c1, &cc[..5]].concat();
    assert_eq!(result(&key, false, 0x0123_4567_89ab_cdef, &p), c);
    assert_eq!(result(&key, true, 0x0123_4567_89ab_cdef, &c), p);
}

/// Each direction undoes the other, over every length up to 600 and some up to
/// the longest; and every block that can be read alone is the whole
/// deciphering's.
#[test]
fn round_trips_and_blocks() {
    let mut random = Random::new(2);
    for length in (16..=600).chain([2_096, 2_097, 4_111, 65_521, 65_535, 65_536]) {
        for key_length in [32, 64] {
            let number = random.pick(&NUMBERS);
            let [key, plain] = [key_length, length].map(|n| random.bytes(n));
            let unit = result(&key, false, number, &plain);
            assert_ne!(unit, plain, "{key_length} {length}");
            assert_eq!(result(&key, true, number, &unit), plain, "{length}");
            let alone = length / 16 - usize::from(length % 16 != 0);
            let step = if length > 600 { 97 } else { 1 };
            for k in (0..alone).step_by(step).chain(alone.checked_sub(1)) {
                let mut into = [0; 16];
                assert_eq!(xts_block(&key, number, &unit, k as u64, &mut into), 0);
                assert_eq!(into, plain[16 * k..][..16], "{length}: block {k}");
            }
            for k in [alone as u64, alone as u64 + 1, 1 << 32, 1 << 60, u64::MAX] {
                let mut into = [7; 16];
                let refusal = xts_block(&key, number, &unit, k, &mut into);
                assert_eq!((refusal, into), (BLOCK_NOT_ALONE, [7; 16]), "{length} {k}");
            }
        }
    }
}

/// Another number, the halves of the key exchanged, or one bit of the key gives
/// other bytes.
#[test]
fn key_and_number_matter() {
    let mut random = Random::new(3);
    let [key, unit] = [32, 100].map(|n| random.bytes(n));
    let before = result(&key, false, 7, &unit);
    for number in (0..64).map(|bit| 7 ^ 1 << bit) {
        assert_ne!(result(&key, false, number, &unit), before, "{number}");
    }
    for place in 0..key.len() {
        let mut other = key.clone();
        other[place] ^= 1;
        assert_ne!(result(&other, false, 7, &unit), before, "{place}");
    }
    let exchanged = [&key[16..], &key[..16]].concat();
    assert_ne!(result(&exchanged, false, 7, &unit), before);
}

/// 02, order 3: 15, then 16, then, of a single block, 17; both sides of each
/// edge, and the bytes kept.
#[test]
fn refusals() {
    let mut random = Random::new(4);
    for key_length in (0..=80).chain([96, 128]) {
        for length in [0, 1, 15, 16, 17, 31, 32, 65_536, 65_537] {
            let wanted = match (key_length, length) {
                (32 | 64, 16..=65_536) => 0,
                (32 | 64, _) => UNIT_LENGTH,
                _ => XTS_KEY_LENGTH,
            };
            let [key, before] = [key_length, length].map(|n| random.bytes(n));
            for back in [false, true] {
                let mut unit = before.clone();
                assert_eq!(xts(&key, back, 5, &mut unit), wanted);
                assert_eq!(unit == before, wanted != 0);
            }
            let last = (length / 16) as u64;
            let first_alone = length >= 32 || length == 16;
            for (k, fits) in [(0, first_alone), (last, false), (u64::MAX, false)] {
                let refusal = if fits { 0 } else { BLOCK_NOT_ALONE };
                let refusal = if wanted == 0 { refusal } else { wanted };
                let mut into = [7; 16];
                assert_eq!(xts_block(&key, 5, &before, k, &mut into), refusal);
                assert_eq!(into == [7; 16], refusal != 0);
            }
        }
    }
}
