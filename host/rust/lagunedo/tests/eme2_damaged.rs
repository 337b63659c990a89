//! Deciphering what was not enciphered so: the library does not detect it
//! (01 leaves detecting forgery to others), answers 0, and gives the same
//! bytes as the second implementation.

mod common;

use common::{by_second, library};
use inputs::Random;

/// A failing case prints its own seed and what was done to it.
const SEED: u64 = 0xda3a_6ed0;

/// Key, data and message: one block; short blocks; a sheet's longest text
/// under its lead; a short block after a new mask.
const LENGTHS: [[usize; 3]; 6] = [
    [48, 0, 16],
    [64, 1, 17],
    [48, 16, 47],
    [64, 37, 96],
    [64, 16, 2_096],
    [48, 40, 2_065],
];

/// At most this many places of a field are changed, spread over it.
const PLACES: usize = 64;

struct Case {
    seed: u64,
    key: Vec<u8>,
    ad: Vec<u8>,
    plain: Vec<u8>,
    cipher: Vec<u8>,
}

fn cases() -> Vec<Case> {
    let case = |(n, lengths): (u64, [usize; 3])| {
        let seed = SEED + n;
        let mut random = Random::new(seed);
        let [key, ad, plain] = lengths.map(|n| random.bytes(n));
        let (number, cipher) = library(&key, false, &ad, &plain, 0);
        assert_eq!(number, 0, "seed {seed:#x}");
        Case {
            seed,
            key,
            ad,
            plain,
            cipher,
        }
    };
    (0..).zip(LENGTHS).map(case).collect()
}

impl Case {
    /// Both decipher these to the same bytes, which are not the message.
    fn other(&self, key: &[u8], ad: &[u8], cipher: &[u8], done: &str) {
        let ours = library(key, true, ad, cipher, cipher.len());
        let name = format!("seed {:#x}, {done}", self.seed);
        assert!(ours == by_second(key, true, ad, cipher), "{name}");
        assert_eq!((ours.0, ours.1.len()), (0, cipher.len()), "{name}");
        assert!(ours.1 != self.plain, "{name}: the message itself");
    }
}

/// The bytes with one bit changed, at places from the first to the last.
fn changed(bytes: &[u8]) -> Vec<(usize, Vec<u8>)> {
    let last = bytes.len().saturating_sub(1);
    let count = bytes.len().min(PLACES);
    let one = |n: usize| {
        let place = n * last / count.saturating_sub(1).max(1);
        let mut bytes = bytes.to_vec();
        bytes[place] ^= 1 << (n % 8);
        (place, bytes)
    };
    (0..count).map(one).collect()
}

/// The places are what `changed` says.
#[test]
fn changed_places() {
    for length in [0, 1, 2, 63, 64, 65, 2_096] {
        let all = changed(&vec![0; length]);
        assert_eq!(all.len(), length.min(PLACES));
        let ends = [all.first(), all.last()].map(|c| c.map(|(place, _)| *place));
        assert_eq!(ends[0], (length > 0).then_some(0));
        assert_eq!(ends[1], length.checked_sub(1));
        assert!(all.windows(2).all(|pair| pair[0].0 < pair[1].0));
        assert!(all.iter().all(|(place, bytes)| bytes[*place] != 0));
    }
}

#[test]
fn undamaged() {
    for case in cases() {
        let back = library(&case.key, true, &case.ad, &case.cipher, 1);
        assert!(back == (0, case.plain.clone()), "seed {:#x}", case.seed);
    }
}

#[test]
fn changed_bits() {
    for case in cases() {
        for (place, cipher) in changed(&case.cipher) {
            case.other(&case.key, &case.ad, &cipher, &format!("byte {place}"));
        }
        for (place, key) in changed(&case.key) {
            case.other(&key, &case.ad, &case.cipher, &format!("key byte {place}"));
        }
        for (place, ad) in changed(&case.ad) {
            case.other(&case.key, &ad, &case.cipher, &format!("data byte {place}"));
        }
    }
}

/// The message cut or made longer, by less than a block and by more; the data
/// likewise, and with its padding written out.
#[test]
fn changed_lengths() {
    for case in cases() {
        for by in [1, 2, 15, 16, 17, 31, 32, 48] {
            let longer = [&case.cipher[..], &vec![0; by]].concat();
            case.other(&case.key, &case.ad, &longer, &format!("{by} longer"));
            if let Some(length) = case.cipher.len().checked_sub(by).filter(|n| *n >= 16) {
                let shorter = &case.cipher[..length];
                case.other(&case.key, &case.ad, shorter, &format!("{by} shorter"));
            }
            let mut ad = [&case.ad[..], &vec![0; by]].concat();
            case.other(&case.key, &ad, &case.cipher, &format!("data {by} longer"));
            ad[case.ad.len()] = 0x80;
            case.other(
                &case.key,
                &ad,
                &case.cipher,
                &format!("data padded by {by}"),
            );
            if let Some(length) = case.ad.len().checked_sub(by) {
                let ad = &case.ad[..length];
                case.other(&case.key, ad, &case.cipher, &format!("data {by} shorter"));
            }
        }
    }
}

/// The other key size, the key's fields in another order, no data for some,
/// the message once more enciphered, its first two blocks exchanged.
#[test]
fn mistaken() {
    for case in cases() {
        let other_size: Vec<u8> = case
            .key
            .iter()
            .copied()
            .cycle()
            .take(112 - case.key.len())
            .collect();
        case.other(&other_size, &case.ad, &case.cipher, "other key size");
        let mut turned = case.key.clone();
        turned.rotate_right(16);
        case.other(&turned, &case.ad, &case.cipher, "key turned");
        if !case.ad.is_empty() {
            case.other(&case.key, &[], &case.cipher, "no data");
        }
        let (_, twice) = library(&case.key, false, &case.ad, &case.cipher, 0);
        case.other(&case.key, &case.ad, &twice, "enciphered twice");
        case.other(&case.key, &case.ad, &case.plain, "never enciphered");
        if case.cipher.len() >= 32 {
            let mut exchanged = case.cipher.clone();
            exchanged[..32].rotate_left(16);
            case.other(&case.key, &case.ad, &exchanged, "blocks exchanged");
        }
    }
}

#[test]
fn random_bytes() {
    for case in cases() {
        let mut random = Random::new(!case.seed);
        for n in 0..50 {
            let cipher = random.bytes(case.cipher.len());
            case.other(&case.key, &case.ad, &cipher, &format!("random bytes {n}"));
        }
    }
}
