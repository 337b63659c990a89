//! The wide block against the second implementation, and against the published
//! vectors of EME-32-AES.

use inputs::{from_hex, lines, Lent, Random};
use probe::wide;
use second::{aes, double};

/// A failing case prints its own seed, from which it can be repeated alone.
const SEED: u64 = 0x31de_b10c;

/// Both sides of the first two new masks (000, line 25: blocks 129 and 257),
/// and the last block before each of them short.
const AROUND_MASKS: [usize; 22] = [
    2_032, 2_033, 2_047, 2_048, 2_049, 2_063, 2_064, 2_065, 2_079, 2_080, 2_081, 2_096, 4_080,
    4_081, 4_095, 4_096, 4_097, 4_111, 4_112, 4_113, 4_127, 4_128,
];

/// What the library leaves in the message, and its number. The message and
/// what is only read are lent at addresses that depend on the length; what is
/// only read must stay.
fn library(key: &[u8], back: bool, l: &[u8], t: &[u8], message: &[u8]) -> (u32, Vec<u8>) {
    let shift = message.len() % 16;
    let [lent_key, lent_l, lent_t] = [key, l, t].map(|bytes| Lent::new(bytes, 15 - shift));
    let mut lent = Lent::new(message, shift);
    let read = [&lent_key, &lent_l, &lent_t].map(Lent::bytes);
    let answer = wide(read[0], back, read[1], read[2], lent.bytes_mut());
    let after = [lent_key, lent_l, lent_t].map(Lent::after);
    assert!(after == [key, l, t], "what is only read changed");
    (answer.map_or_else(|n| n, |()| 0), lent.after())
}

/// One block by the second implementation, under a key of an allowed length.
fn permute(key: &[u8], back: bool, mut block: [u8; 16]) -> [u8; 16] {
    assert_eq!(aes(key, back, &mut block), 0);
    block
}

/// The message after, by the second implementation.
fn by_second(key: &[u8], back: bool, l: &[u8], t: &[u8], message: &[u8]) -> Vec<u8> {
    let [l, t] = [l, t].map(|b| b.try_into().expect("a block"));
    let mut message = message.to_vec();
    second::wide(&|x| permute(key, back, x), l, t, &mut message);
    message
}

/// One length, both key sizes and both ways, and that each way undoes the
/// other.
fn compare(length: usize, seed: u64) {
    for key_length in [16, 32] {
        let mut random = Random::new(seed);
        let [key, l, t, message] = [key_length, 16, 16, length].map(|n| random.bytes(n));
        let name = format!("seed {seed:#x}, key of {key_length} bytes, {length} bytes");
        for back in [false, true] {
            let (number, ours) = library(&key, back, &l, &t, &message);
            assert_eq!(number, 0, "{name}");
            let wanted = by_second(&key, back, &l, &t, &message);
            assert!(ours == wanted, "{name}, back {back}");
            let again = library(&key, !back, &l, &t, &ours);
            assert!(again == (0, message.clone()), "not undone: {name}");
        }
    }
}

#[test]
fn every_length() {
    for length in 16..=600 {
        compare(length, SEED + length as u64);
    }
}

#[test]
fn around_new_masks() {
    for length in AROUND_MASKS {
        compare(length, SEED + length as u64);
    }
}

/// EME2-AES stops at 65,536 bytes; what is below it does not.
#[test]
fn beyond_eme2() {
    for length in [65_536, 65_537, 67_600] {
        compare(length, SEED + length as u64);
    }
}

/// L and T_star of zeros, of ff, and with the bit that doubling carries out.
#[test]
fn extreme() {
    let mut carry = [0; 16];
    carry[15] = 0x80;
    let blocks = [[0; 16], [0xff; 16], [0x80; 16], carry];
    let mut random = Random::new(SEED);
    for length in [16, 17, 33, 64, 2_065] {
        let [key, message] = [32, length].map(|n| random.bytes(n));
        for l in blocks {
            for t in blocks {
                for back in [false, true] {
                    let wanted = (0, by_second(&key, back, &l, &t, &message));
                    let ours = library(&key, back, &l, &t, &message);
                    assert!(ours == wanted, "{length} bytes, {l:02x?}, {t:02x?}");
                }
            }
        }
    }
}

/// The published vectors of EME-32-AES (a forerunner of 512 bytes), both ways:
/// L is twice the encipherment of the zero block, T_star the tweak.
///
/// Of EME2-AES they cover the two passes, the masks of a message up to block
/// 32, and the mixing of whole blocks, under a key of 32 bytes. They do not
/// cover a short block, a new mask at block 129, or associated data.
#[test]
fn eme32() {
    let lines = lines("eme32.txt");
    assert_eq!(lines.len(), 2);
    for line in lines {
        let [key, tweak, plain, enciphered] = &line[..] else {
            panic!("not four words: {line:?}");
        };
        let [key, tweak, plain, enciphered] = [key, tweak, plain, enciphered].map(|d| from_hex(d));
        assert_eq!([key.len(), tweak.len(), plain.len()], [32, 16, 512]);
        let l = double(permute(&key, false, [0; 16]));
        let there = library(&key, false, &l, &tweak, &plain);
        assert!(there == (0, enciphered.clone()), "enciphering");
        let back = library(&key, true, &l, &tweak, &enciphered);
        assert!(back == (0, plain), "deciphering");
    }
}

/// The key first, then the three others; the message is kept.
#[test]
fn refusals() {
    let mut random = Random::new(SEED);
    let mut ended = [0; 3];
    for key_length in (0..=33).chain([48, 64]) {
        for l_length in [0, 15, 16, 17, 32] {
            for t_length in [0, 15, 16, 17, 32] {
                for length in [0, 1, 15, 16, 17, 100] {
                    let lengths = [key_length, l_length, t_length, length];
                    let wanted = match lengths {
                        [16 | 32, 16, 16, 16..=100] => 0,
                        [16 | 32, ..] => 2,
                        _ => 1,
                    };
                    let [key, l, t, message] = lengths.map(|n| random.bytes(n));
                    for back in [false, true] {
                        let (number, ours) = library(&key, back, &l, &t, &message);
                        assert_eq!(number, wanted, "{lengths:?}");
                        assert_eq!(ours == message, wanted != 0, "{lengths:?}");
                    }
                    ended[wanted as usize] += 1;
                }
            }
        }
    }
    assert_eq!(ended, [6, 34 * 150, 2 * 150 - 6]);
}
