//! EME2-AES of the proved library against the second implementation, over
//! every small length, lengths around each new mask up to the longest, every
//! small length of associated data, and random and extreme bytes.

mod common;

use common::{by_second, library};
use inputs::Random;
use lagunedo::eme2_encipher;

/// A failing case prints its own seed, from which it can be repeated alone.
const SEED: u64 = 0x0e4e_2000;

const KEY_LENGTHS: [usize; 2] = [48, 64];

/// Messages of every length up to this one, beyond the first new mask (2,064).
const EVERY_UP_TO: usize = 2_200;

/// Lengths of associated data beside 0 to 80. With those they are 101: that
/// is prime to 16, so over the messages of every length each length of data
/// meets each length of the last block.
const MORE_DATA: [usize; 20] = [
    95, 96, 97, 127, 128, 129, 255, 256, 257, 400, 511, 512, 513, 768, 900, 1_007, 1_008, 1_009,
    1_023, 1_024,
];

/// How many inputs each test compares with the second implementation; every
/// test ends by asserting its own number.
const EVERY_LENGTH: usize = 8_740;
const LONG: usize = 458;
const EVERY_DATA_LENGTH: usize = 2_424;
const RANDOM: usize = 10_000;
const EXTREME: usize = 5_000;
const _: () = assert!(EVERY_LENGTH + LONG + EVERY_DATA_LENGTH + RANDOM + EXTREME >= 20_000);

/// The lengths of associated data, by a number that goes round.
fn data_length(n: usize) -> usize {
    let n = n % (81 + MORE_DATA.len());
    n.checked_sub(81).map_or(n, |more| MORE_DATA[more])
}

/// Both directions agree with the second implementation, and each undoes the
/// other. Returns how many inputs were compared.
fn compare(
    key: &[u8],
    ad: &[u8],
    message: &[u8],
    shift: usize,
    name: &dyn Fn() -> String,
) -> usize {
    for back in [false, true] {
        let ours = library(key, back, ad, message, shift);
        let wanted = by_second(key, back, ad, message);
        assert!(ours == wanted, "{}, back {back}", name());
        assert_eq!(ours.0, 0, "{}", name());
        let again = library(key, !back, ad, &ours.1, shift);
        assert!(again == (0, message.to_vec()), "not undone: {}", name());
    }
    2
}

/// The same for random bytes of these lengths: key, data, message.
fn compare_lengths(lengths: [usize; 3], seed: u64) -> usize {
    let mut random = Random::new(seed);
    let [key, ad, message] = lengths.map(|n| random.bytes(n));
    let shift = random.word() as usize % 256;
    let name = || format!("seed {seed:#x}, lengths of key, data and message {lengths:?}");
    compare(&key, &ad, &message, shift, &name)
}

#[test]
fn every_length() {
    let mut compared = 0;
    for length in 16..=EVERY_UP_TO {
        for (n, key_length) in KEY_LENGTHS.into_iter().enumerate() {
            let ad_length = data_length(length + 50 * n);
            let seed = SEED + (2 * length + n) as u64;
            compared += compare_lengths([key_length, ad_length, length], seed);
        }
    }
    assert_eq!(compared, EVERY_LENGTH);
}

/// Around every multiple of 2,048, where a block that begins a new mask may
/// be missing, short, or full, alone or with a short one after it; and some
/// lengths between. The key sizes take turns, but for the two longest.
#[test]
fn long() {
    let around =
        |k: usize| [2_032, 2_047, 2_048, 2_049, 2_063, 2_064, 2_065].map(|n| k * 2_048 + n);
    let between = [3_000, 5_003, 10_000, 20_011, 33_333, 50_001, 60_000];
    let lengths = (0..32).flat_map(around).chain(between);
    let mut compared = 0;
    for (n, length) in lengths.filter(|n| *n <= 65_536).enumerate() {
        for (m, key_length) in KEY_LENGTHS.into_iter().enumerate() {
            if n % 2 == m || length >= 65_535 {
                let seed = SEED + 10_000 + (2 * n + m) as u64;
                compared += compare_lengths([key_length, data_length(n), length], seed);
            }
        }
    }
    assert_eq!(compared, LONG);
}

/// Each length of associated data with a message of one block, with a short
/// block, with several, and with a new mask.
#[test]
fn every_data_length() {
    let mut compared = 0;
    for n in 0..81 + MORE_DATA.len() {
        for (m, length) in [16, 17, 32, 47, 100, 2_065].into_iter().enumerate() {
            for (k, key_length) in KEY_LENGTHS.into_iter().enumerate() {
                let seed = SEED + 20_000 + (12 * n + 2 * m + k) as u64;
                compared += compare_lengths([key_length, data_length(n), length], seed);
            }
        }
    }
    assert_eq!(compared, EVERY_DATA_LENGTH);
}

/// Lengths that are random too.
#[test]
fn random() {
    let mut compared = 0;
    for n in 0..RANDOM as u64 / 2 {
        let seed = SEED + 30_000 + n;
        let mut random = Random::new(!seed);
        let key_length = random.pick(&KEY_LENGTHS);
        let lengths = [key_length, random.below(200), 16 + random.below(300)];
        compared += compare_lengths(lengths, seed);
    }
    assert_eq!(compared, RANDOM);
}

/// Bytes that bring out a carry lost in doubling, a padding or a zero taken
/// for something else. The fourth doubles to 87 hex and zeros in each block.
const PATTERNS: [fn(usize) -> u8; 5] = [
    |_| 0x00,
    |_| 0xff,
    |_| 0x80,
    |i| if i % 16 == 15 { 0x80 } else { 0 },
    |i| if i % 16 == 0 { 0x01 } else { 0 },
];

#[test]
fn extreme() {
    let of =
        |pattern: usize, length: usize| -> Vec<u8> { (0..length).map(PATTERNS[pattern]).collect() };
    let mut compared = 0;
    for (ad_length, length) in [
        (0, 16),
        (16, 17),
        (17, 32),
        (15, 33),
        (33, 48),
        (1, 63),
        (31, 64),
        (32, 100),
        (16, 2_064),
        (40, 2_096),
    ] {
        for key_length in KEY_LENGTHS {
            for n in 0..125 {
                let patterns = [n % 5, n / 5 % 5, n / 25];
                let [k, a, m] = patterns;
                let name = || {
                    format!("patterns {patterns:?}, lengths {key_length}, {ad_length}, {length}")
                };
                compared += compare(
                    &of(k, key_length),
                    &of(a, ad_length),
                    &of(m, length),
                    n,
                    &name,
                );
            }
        }
    }
    assert_eq!(compared, EXTREME);
}

/// Threads that share a key and work on messages of their own.
#[test]
fn several_threads() {
    let key = Random::new(SEED).bytes(64);
    std::thread::scope(|scope| {
        for thread in 0..4 {
            let key = &key;
            scope.spawn(move || {
                for n in 0..200 {
                    let seed = SEED + 40_000 + 200 * thread + n;
                    let mut random = Random::new(seed);
                    let [ad, message] = [n as usize, 16 + 2 * n as usize].map(|n| random.bytes(n));
                    let name = || format!("seed {seed:#x}, shared key");
                    compare(key, &ad, &message, 0, &name);
                }
            });
        }
    });
}

/// Rust allows it that what is only read is lent twice.
#[test]
fn key_as_data() {
    let mut random = Random::new(SEED);
    for key_length in KEY_LENGTHS {
        let key = random.bytes(key_length);
        let mut message = random.bytes(100);
        let wanted = by_second(&key, false, &key.clone(), &message);
        let answer = eme2_encipher(&key, &key, &mut message);
        assert_eq!((answer, wanted), (Ok(()), (0, message)));
    }
}
