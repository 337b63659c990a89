//! EME2-AES against 01's table of edges, examples worked by hand, the
//! published vectors of EME-32-AES, and itself the other way.

use super::{associated, double, pad, parts, split, Block};
use crate::cipher::{cipher, inv_cipher};
use crate::schedule::key_expansion;
use crate::{eme2, wide, DATA_LENGTH, KEY_LENGTH, MESSAGE_LENGTH};
use inputs::{from_hex, lines, Random};
use std::cell::Cell;

/// The bytes given, then zeros.
fn front(bytes: &[u8]) -> Block {
    let mut block = [0; 16];
    block[..bytes.len()].copy_from_slice(bytes);
    block
}

/// A permutation that can be followed by hand: 1 added to the first byte.
fn add_one(mut x: Block) -> Block {
    x[0] = x[0].wrapping_add(1);
    x
}

/// The result of a call that is not refused.
fn result(key: &[u8], back: bool, ad: &[u8], message: &[u8]) -> Vec<u8> {
    let mut message = message.to_vec();
    assert_eq!(eme2(key, back, ad, &mut message), 0);
    message
}

/// 01, D1 to D4.
#[test]
fn doubling() {
    assert_eq!(double(front(&[1])), front(&[2]));
    assert_eq!(double(front(&[0x80])), front(&[0, 1]));
    let mut x = [0; 16];
    x[15] = 0x80;
    assert_eq!(double(x), front(&[0x87]));
    let mut y = [0xff; 16];
    y[0] = 0x79;
    assert_eq!(double([0xff; 16]), y);
}

/// 01, D5, and the longest short block.
#[test]
fn padding() {
    assert_eq!(pad(&[0xab]), front(&[0xab, 0x80]));
    let mut fifteen = [7; 16];
    fifteen[15] = 0x80;
    assert_eq!(pad(&[7; 15]), fifteen);
}

/// 01, D6 and D7, and that the parts joined are the whole.
#[test]
fn splitting() {
    let bytes: Vec<u8> = (0..33).collect();
    let lengths = |n| -> Vec<usize> { split(&bytes[..n]).iter().map(|b| b.len()).collect() };
    assert_eq!(lengths(33), [16, 16, 1]);
    assert_eq!(lengths(32), [16, 16]);
    assert!(lengths(0).is_empty());
    assert_eq!(split(&bytes).concat(), bytes);
}

/// 000, 5.1: the key's three fields, for both sizes.
#[test]
fn key_parts() {
    let key: Vec<u8> = (0..64).collect();
    assert_eq!(parts(&key[..48]), [&key[..16], &key[16..32], &key[32..48]]);
    assert_eq!(parts(&key), [&key[..32], &key[32..48], &key[48..]]);
}

/// 01, D8 to D11: by the rule over the full blocks from 2, and by the calls
/// of the permutation: two for each full block, one for MP, one for MM where
/// the last is short, one for each new mask.
#[test]
fn new_masks() {
    for (length, wanted) in [
        (16, vec![]),
        (2_048, vec![]),
        (2_049, vec![]),
        (2_064, vec![129]),
        (2_065, vec![129]),
        (4_096, vec![129]),
        (4_111, vec![129]),
        (4_112, vec![129, 257]),
        (65_536, (1..32).map(|k| 128 * k + 1).collect()),
    ] {
        let full = length / 16;
        assert_eq!(super::new_masks(length), wanted, "{length}");
        let calls = Cell::new(0);
        let permute = |x| {
            calls.set(calls.get() + 1);
            add_one(x)
        };
        wide(&permute, [3; 16], [5; 16], &mut vec![0; length]);
        let mixing = if length % 16 == 0 { 1 } else { 2 };
        assert_eq!(calls.get(), 2 * full + mixing + wanted.len(), "{length}");
    }
}

/// Lines 1 to 11 by hand, with Key3 = 1: the mask is 1 where there is no
/// data, 2 for T1, doubled for each next block and once more for a short one.
#[test]
fn associated_by_hand() {
    let t_star = |t: &[u8]| associated(&add_one, front(&[1]), t);
    assert_eq!(t_star(&[]), front(&[2]));
    assert_eq!(t_star(&[0xab]), front(&[0xb4, 0x80]));
    assert_eq!(t_star(&front(&[0xab])), front(&[0xa8]));
    let two = [front(&[0xab]), front(&[0xab])].concat();
    assert_eq!(t_star(&two), front(&[0xa8 ^ 0xb4]));
    assert_eq!(t_star(&two[..17]), front(&[0xa8 ^ 0xac, 0x80]));
}

/// Lines 12 to 45 by hand where m = 1 (01: CCC1 = MC1 xor T_star). PPP1 = 1,
/// MP = 1 xor 8 = 9, MC1 = 10, CCC1 = 10 xor 8 = 2.
#[test]
fn one_block_by_hand() {
    let mut message = [0; 16];
    wide(&add_one, [0; 16], front(&[8]), &mut message);
    assert_eq!(message, front(&[3]));
}

/// L by hand, with L = 4: PPP1 = 5, PPP2 = 9, MP = 12, MC1 = 13, M1 = 1,
/// CCC2 = 9 xor 2 = 11, C2 = 12 xor 8, CCC1 = 13 xor 11 = 6, C1 = 7 xor 4.
#[test]
fn two_blocks_by_hand() {
    let mut message = [0; 32];
    wide(&add_one, front(&[4]), [0; 16], &mut message);
    assert_eq!(message, [front(&[3]), front(&[4])].concat()[..]);
}

/// A short last block by hand: PPP2 = 05 80, MP = 04 80, MM = 05 80, so C2 =
/// 05 xor 05 and CCC2 = 00 80; MC1 = 06 80, CCC1 = 06, C1 = 07.
#[test]
fn short_block_by_hand() {
    let mut message = [0; 17];
    message[16] = 5;
    wide(&add_one, [0; 16], [0; 16], &mut message);
    assert_eq!(message[..16], front(&[7]));
    assert_eq!(message[16], 0);
}

/// The mask at block 129 by hand, over 129 and 131 zero blocks with L = 0, so
/// that each PPPi = 1. MP = 1, MC1 = 2, M1 = 3. Block 129 has MP = 1 xor 3 =
/// 2, MC = 3, M = 1, CCC = 3 xor 3; block 130 has CCC = 1 xor 2, block 131
/// CCC = 1 xor 4. CCC2 .. CCC128 add to 1 xor the sum of 2^k · 3 for k from 1
/// to 127, which is 2^128 xor 2 = 85 hex.
#[test]
fn new_mask_by_hand() {
    for (count, first) in [(129, 0x02 ^ 0x01 ^ 0x85), (131, 0x02 ^ 0x01 ^ 0x85 ^ 3 ^ 5)] {
        let mut message = vec![0; 16 * count];
        wide(&add_one, [0; 16], [0; 16], &mut message);
        let c = split(&message);
        assert_eq!(c[0], front(&[first + 1]));
        assert_eq!(c[1], front(&[(1 ^ 6) + 1]));
        let tail = [front(&[1]), front(&[3 + 1]), front(&[5 + 1])];
        assert_eq!(c[128..].concat(), tail[..count - 128].concat());
    }
}

/// The published vectors of EME-32-AES, both ways.
#[test]
fn eme32() {
    let lines = lines("eme32.txt");
    assert_eq!(lines.len(), 2);
    for line in lines {
        let [key, tweak, plain, enciphered] = &line[..] else {
            panic!("not four words: {line:?}");
        };
        let [plain, enciphered] = [plain, enciphered].map(|digits| from_hex(digits));
        assert_eq!(plain.len(), 512);
        let tweak = from_hex(tweak).try_into().expect("a tweak of 16 bytes");
        let w = key_expansion(&from_hex(key));
        let l = double(cipher(&[0; 16], &w));
        let mut message = plain.clone();
        wide(&|x| cipher(&x, &w), l, tweak, &mut message);
        assert_eq!(message, enciphered);
        wide(&|x| inv_cipher(&x, &w), l, tweak, &mut message);
        assert_eq!(message, plain);
    }
}

/// The call is `wide` over AES under Key1, with L = Key2 and T_star by Enc in
/// both directions, for both key sizes.
#[test]
fn call() {
    let mut random = Random::new(2);
    for key_length in [48, 64] {
        let [key, ad, message] = [key_length, 21, 55].map(|n| random.bytes(n));
        let w = key_expansion(&key[..key_length - 32]);
        let [key2, key3] = [32, 16].map(|n| key[key_length - n..][..16].try_into().unwrap());
        let t_star = associated(&|x| cipher(&x, &w), key3, &ad);
        let mut wanted = message.clone();
        wide(&|x| cipher(&x, &w), key2, t_star, &mut wanted);
        assert_eq!(result(&key, false, &ad, &message), wanted);
        let mut wanted = message.clone();
        wide(&|x| inv_cipher(&x, &w), key2, t_star, &mut wanted);
        assert_eq!(result(&key, true, &ad, &message), wanted);
    }
}

/// Each direction undoes the other, over every length up to beyond the first
/// new mask, and at the longest.
#[test]
fn round_trips() {
    let ads = [0, 1, 15, 16, 17, 32, 1_024];
    let mut random = Random::new(3);
    for length in (16..=2_200).chain([4_111, 4_112, 65_535, 65_536]) {
        for key_length in [48, 64] {
            let ad_length = ads[length % ads.len()];
            let [key, ad, message] = [key_length, ad_length, length].map(|n| random.bytes(n));
            let there = result(&key, false, &ad, &message);
            assert_ne!(there, message, "{key_length} {ad_length} {length}");
            let back = result(&key, true, &ad, &there);
            assert_eq!(back, message, "{key_length} {ad_length} {length}");
        }
    }
}

/// Asserts that no block of one is the block of the other.
fn all_differ(a: &[u8], b: &[u8], at: &str) {
    assert_eq!(a.len(), b.len());
    for (i, (a, b)) in split(a).iter().zip(split(b)).enumerate() {
        assert_ne!(*a, b, "{at}: block {}", i + 1);
    }
}

/// One bit of the message changes every block, the short one too.
#[test]
fn message_reaches_every_block() {
    let mut random = Random::new(4);
    let [key, ad, mut message] = [48, 16, 2_100].map(|n| random.bytes(n));
    for back in [false, true] {
        let before = result(&key, back, &ad, &message);
        for place in 0..message.len() {
            let bit = 1 << (place % 8);
            message[place] ^= bit;
            let after = result(&key, back, &ad, &message);
            all_differ(&before, &after, &format!("byte {place}"));
            message[place] ^= bit;
        }
    }
}

/// So does one bit of the key or of the associated data, and its length.
#[test]
fn key_and_data_reach_every_block() {
    let mut random = Random::new(5);
    let [mut key, mut ad, message] = [64, 1_023, 2_100].map(|n| random.bytes(n));
    for back in [false, true] {
        let before = result(&key, back, &ad, &message);
        for place in 0..key.len() {
            key[place] ^= 1;
            let after = result(&key, back, &ad, &message);
            all_differ(&before, &after, &format!("key byte {place}"));
            key[place] ^= 1;
        }
        for place in 0..ad.len() {
            ad[place] ^= 1;
            let after = result(&key, back, &ad, &message);
            all_differ(&before, &after, &format!("data byte {place}"));
            ad[place] ^= 1;
        }
        let padded = [&ad[..], &[0x80]].concat();
        let after = result(&key, back, &padded, &message);
        all_differ(&before, &after, "padded data");
    }
}

/// 01, order of refusals: transform 1, 2, 3; both sides of each edge, and the
/// message kept.
#[test]
fn refusals() {
    let mut random = Random::new(6);
    for key_length in (0..=80).chain([96, 128]) {
        for length in [0, 1, 15, 16, 17, 65_536, 65_537] {
            for ad_length in [0, 1, 15, 16, 17, 1_024, 1_025] {
                let wanted = match (key_length, length, ad_length) {
                    (48 | 64, 16..=65_536, 0..=1_024) => 0,
                    (48 | 64, 16..=65_536, _) => DATA_LENGTH,
                    (48 | 64, _, _) => MESSAGE_LENGTH,
                    _ => KEY_LENGTH,
                };
                let [key, ad, before] = [key_length, ad_length, length].map(|n| random.bytes(n));
                for back in [false, true] {
                    let mut message = before.clone();
                    assert_eq!(eme2(&key, back, &ad, &mut message), wanted);
                    assert_eq!(message == before, wanted != 0);
                }
            }
        }
    }
}
