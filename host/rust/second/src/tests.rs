//! The second implementation against FIPS 197 and NIST's known answers.

use crate::cipher::{cipher, inv_cipher};
use crate::field::{inverse, times};
use crate::schedule::key_expansion;
use crate::substitution::{INV_S_BOX, S_BOX};
use crate::{aes, KEY_LENGTH, MESSAGE_LENGTH};
use inputs::{from_hex, lines, nist, Random};

/// One block under a key of any of the standard's sizes.
fn block(key: &[u8], back: bool, input: &[u8]) -> Vec<u8> {
    let w = key_expansion(key);
    let input = input.try_into().expect("a block");
    if back {
        inv_cipher(input, &w).to_vec()
    } else {
        cipher(input, &w).to_vec()
    }
}

/// Section 4.4, over the whole field; the products are those of section 4.2.
#[test]
fn field() {
    assert_eq!(times(0x57, 0x13), 0xfe);
    assert_eq!(times(0x57, 0x83), 0xc1);
    assert_eq!(inverse(0), 0);
    for b in 1..=255 {
        assert_eq!(times(b, inverse(b)), 1, "{b:02x}");
    }
}

/// Entries that section 5.1.1 and 01 (D12) print, and that the tables undo
/// each other.
#[test]
fn substitution() {
    assert_eq!(S_BOX[0x00], 0x63);
    assert_eq!(S_BOX[0x53], 0xed);
    assert_eq!(S_BOX[0xff], 0x16);
    for b in 0..=255_u8 {
        assert_eq!(INV_S_BOX[usize::from(S_BOX[usize::from(b)])], b);
        assert_eq!(S_BOX[usize::from(INV_S_BOX[usize::from(b)])], b);
    }
}

/// Appendix A: every word of the three schedules.
#[test]
fn appendix_a() {
    let text = include_str!("appendix_a.txt");
    let schedules: Vec<&str> = text.split("\n\n").collect();
    assert_eq!(schedules.len(), 3);
    for (schedule, (key_length, words)) in schedules.iter().zip([(16, 44), (24, 52), (32, 60)]) {
        let listed: Vec<u8> = schedule.split_whitespace().flat_map(from_hex).collect();
        assert_eq!(listed.len(), 4 * words);
        assert_eq!(key_expansion(&listed[..key_length]).concat(), listed);
    }
}

/// Appendices A (last words), B and C as the vector file has them.
#[test]
fn appendices() {
    let lines = lines("fips197.txt");
    assert_eq!(lines.len(), 7);
    for line in lines {
        let words: Vec<&str> = line.iter().map(String::as_str).collect();
        match words[..] {
            [name, "key", key, "pt", plain, "ct", enciphered] => {
                let [key, plain, enciphered] = [key, plain, enciphered].map(from_hex);
                assert_eq!(block(&key, false, &plain), enciphered, "{name}");
                assert_eq!(block(&key, true, &enciphered), plain, "{name}");
            }
            [name, "key", key, last, word] => {
                let w = key_expansion(&from_hex(key));
                assert_eq!(format!("w{}", w.len() - 1), last, "{name}");
                assert_eq!(w[w.len() - 1][..], from_hex(word), "{name}");
            }
            _ => panic!("a line of another form: {line:?}"),
        }
    }
}

/// NIST's known answers, the 24-byte keys too.
#[test]
fn known_answers() {
    let all = nist();
    assert_eq!(all.len(), 77);
    for known in all {
        let result = block(&known.key, known.back, &known.input);
        assert_eq!(result, known.output, "{}", known.name);
    }
}

/// The call itself gives appendix C.1 and C.3.
#[test]
fn call() {
    let key: Vec<u8> = (0..32).collect();
    let plain = from_hex("00112233445566778899aabbccddeeff");
    for (length, enciphered) in [
        (16, "69c4e0d86a7b0430d8cdb78070b4c55a"),
        (32, "8ea2b7ca516745bfeafc49904b496089"),
    ] {
        let mut block = plain.clone();
        assert_eq!(aes(&key[..length], false, &mut block), 0);
        assert_eq!(block, from_hex(enciphered));
        assert_eq!(aes(&key[..length], true, &mut block), 0);
        assert_eq!(block, plain);
    }
}

/// 01, AES: a wrong key is refused with 1, then a wrong block with 2, and the
/// block is kept.
#[test]
fn refusals() {
    let mut random = Random::new(1);
    for key_length in 0..=40 {
        for block_length in 0..=40 {
            let key = random.bytes(key_length);
            let before = random.bytes(block_length);
            let wanted = match (key_length, block_length) {
                (16 | 32, 16) => continue,
                (16 | 32, _) => MESSAGE_LENGTH,
                _ => KEY_LENGTH,
            };
            for back in [false, true] {
                let mut block = before.clone();
                assert_eq!(aes(&key, back, &mut block), wanted);
                assert_eq!(block, before);
            }
        }
    }
}
