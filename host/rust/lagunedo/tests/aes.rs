//! AES of the proved library against the published answers and against the
//! second implementation.

use inputs::{from_hex, lines, nist, Lent, Random};
use lagunedo::{aes_decipher, aes_encipher, Refusal};
use second::aes;

/// Pairs of random key and block tried for each key size.
const PAIRS: u64 = 100_000;

/// A failing case prints its own seed, from which it can be repeated alone.
const SEED: u64 = 0x1a90_edd0;

const KEY_LENGTHS: [usize; 2] = [16, 32];

fn call(key: &[u8], back: bool, block: &mut [u8]) -> Result<(), Refusal> {
    if back {
        aes_decipher(key, block)
    } else {
        aes_encipher(key, block)
    }
}

/// The answer's number, and the bytes that the library leaves in the block,
/// lent at an address shifted by `shift`. The key must stay.
fn library(key: &[u8], back: bool, block: &[u8], shift: usize) -> (u32, Vec<u8>) {
    let lent_key = Lent::new(key, 0);
    let mut lent = Lent::new(block, shift);
    let answer = call(lent_key.bytes(), back, lent.bytes_mut());
    assert_eq!(lent_key.after(), key, "the key changed");
    (answer.map_or_else(Refusal::number, |()| 0), lent.after())
}

/// The same of the second implementation.
fn by_second(key: &[u8], back: bool, block: &[u8]) -> (u32, Vec<u8>) {
    let mut block = block.to_vec();
    (aes(key, back, &mut block), block)
}

/// One pair: both directions agree with the second implementation, and each
/// direction undoes the other.
fn compare(key: &[u8], block: &[u8], shift: usize, name: &dyn Fn() -> String) {
    for back in [false, true] {
        let ours = library(key, back, block, shift);
        assert_eq!(ours, by_second(key, back, block), "{}", name());
        let again = library(key, !back, &ours.1, shift);
        assert_eq!(again, (0, block.to_vec()), "not undone: {}", name());
    }
}

#[test]
fn fips_197_appendices() {
    let mut tried = 0;
    for line in lines("fips197.txt") {
        let words: Vec<&str> = line.iter().map(String::as_str).collect();
        let [name, "key", key, "pt", plain, "ct", enciphered] = words[..] else {
            continue;
        };
        let [key, plain, enciphered] = [key, plain, enciphered].map(from_hex);
        tried += 1;
        if key.len() == 24 {
            assert_eq!(library(&key, false, &plain, 0), (1, plain), "{name}");
            continue;
        }
        assert_eq!(
            library(&key, false, &plain, 0),
            (0, enciphered.clone()),
            "{name}"
        );
        assert_eq!(library(&key, true, &enciphered, 0), (0, plain), "{name}");
    }
    assert_eq!(tried, 4);
}

/// The known answers for 24-byte keys are refused, since 01 leaves them out.
#[test]
fn nist_known_answers() {
    let all = nist();
    assert_eq!(all.len(), 77);
    for known in all {
        let ours = library(&known.key, known.back, &known.input, 0);
        let wanted = match known.key.len() {
            24 => (1, known.input),
            _ => (0, known.output),
        };
        assert_eq!(ours, wanted, "{}", known.name);
    }
}

#[test]
fn random_pairs() {
    for key_length in KEY_LENGTHS {
        for n in 0..PAIRS {
            let seed = SEED + n;
            let mut random = Random::new(seed);
            let key = random.bytes(key_length);
            let block = random.bytes(16);
            let name = || format!("seed {seed:#x}, key of {key_length} bytes");
            compare(&key, &block, (n % 16) as usize, &name);
        }
    }
}

/// All zero, all ff, and each single bit set.
fn structured(length: usize) -> Vec<Vec<u8>> {
    let mut all = vec![vec![0; length], vec![0xff; length]];
    for bit in 0..8 * length {
        let mut bytes = vec![0; length];
        bytes[bit / 8] = 1 << (bit % 8);
        all.push(bytes);
    }
    all
}

#[test]
fn structured_pairs() {
    for key_length in KEY_LENGTHS {
        for key in structured(key_length) {
            for block in structured(16) {
                let name = || format!("key {key:02x?}, block {block:02x?}");
                compare(&key, &block, 0, &name);
            }
        }
    }
}

/// 01, AES: a wrong key is refused with 1, then a wrong block with 2, and the
/// block is kept.
#[test]
fn every_length() {
    let mut random = Random::new(SEED);
    for key_length in 0..=40 {
        for block_length in 0..=40 {
            let key = random.bytes(key_length);
            let block = random.bytes(block_length);
            for back in [false, true] {
                let ours = library(&key, back, &block, block_length % 16);
                let wanted = match (key_length, block_length) {
                    (16 | 32, 16) => by_second(&key, back, &block),
                    (16 | 32, _) => (2, block.clone()),
                    _ => (1, block.clone()),
                };
                assert_eq!(ours, wanted, "lengths {key_length} and {block_length}");
            }
        }
    }
}

/// Threads that share a key and work on blocks of their own.
#[test]
fn several_threads() {
    let key = Random::new(SEED).bytes(32);
    std::thread::scope(|scope| {
        for thread in 0..4 {
            let key = &key;
            scope.spawn(move || {
                for n in 0..1_000 {
                    let seed = SEED + 1_000 * thread + n;
                    let block = Random::new(seed).bytes(16);
                    compare(key, &block, 0, &|| format!("seed {seed:#x}, shared key"));
                }
            });
        }
    });
}

#[test]
fn refusal_carries_the_number() {
    let refusal = aes_encipher(&[], &mut [0; 16]).unwrap_err();
    assert_eq!(refusal, Refusal::KeyLength);
    assert_eq!(refusal.number(), 1);
    let refusal = aes_decipher(&[0; 16], &mut []).unwrap_err();
    assert_eq!(refusal, Refusal::MessageLength);
    assert_eq!(refusal.number(), 2);
}
