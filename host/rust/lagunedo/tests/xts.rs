//! XTS-AES of the proved library: IEEE's published vectors, and beside the second
//! implementation every small length, lengths up to the longest, every block
//! that can be read alone, and each refusal.

mod ways;

use inputs::{from_hex, lines, Random};
use lagunedo::{xts_block, xts_decipher, xts_encipher, Refusal};
use ways::{agree, Call, Memory, What};

/// A failing case prints its own seed, from which it can be repeated alone.
const SEED: u64 = 0x0715_a350;

const KEY_LENGTHS: [usize; 2] = [32, 64];
const NUMBERS: [u64; 4] = [0, 255, 1 << 32, u64::MAX];
const DIRECTIONS: [What; 2] = [What::XtsEncipher, What::XtsDecipher];

/// Lengths above 600: on either side of some blocks, of the longest text of a
/// sheet and of the longest unit, and some between.
const LONG: [usize; 22] = [
    1_023, 1_024, 1_025, 2_047, 2_048, 2_095, 2_096, 2_097, 4_095, 4_096, 4_097, 8_191, 10_007,
    16_384, 20_011, 33_333, 50_001, 65_519, 65_520, 65_521, 65_535, 65_536,
];

/// How many inputs each test compares with the second implementation.
const EVERY_LENGTH: usize = 585 * 2 * 4 * 2;
const LONG_ONES: usize = LONG.len() * 2 * 4 * 2;
const EXTREME: usize = 6 * 2 * 125 * 2;
const EVERY_BLOCK: usize = 22_881;

/// Memory with random bytes of these lengths, and where it came from.
fn drawn(key: usize, unit: usize, seed: u64) -> (Memory, usize) {
    let mut random = Random::new(seed);
    let memory = Memory {
        xts_key: random.bytes(key),
        text: random.bytes(unit),
        block: random.bytes(16).try_into().expect("16 bytes"),
        ..Memory::default()
    };
    (memory, random.below(256))
}

/// Both directions agree with the second implementation, and each undoes the
/// other. Returns how many inputs were compared.
fn compare(before: &Memory, number: u64, shift: usize, name: &dyn Fn() -> String) -> usize {
    for what in DIRECTIONS {
        let call = Call {
            number,
            ..Call::of(what)
        };
        let (answer, after) = agree(&call, before, shift, name);
        assert_eq!(answer, 0, "{}", name());
        assert!(after.text != before.text, "{}", name());
        let undoing = Call {
            what: what.undoing().expect("a direction"),
            ..call
        };
        let (answer, again) = agree(&undoing, &after, shift, name);
        assert!((answer, &again) == (0, before), "not undone: {}", name());
    }
    2
}

fn compare_lengths(key: usize, unit: usize, number: u64, seed: u64) -> usize {
    let (memory, shift) = drawn(key, unit, seed);
    let name = || format!("seed {seed:#x}, key {key}, unit {unit}, number {number}");
    compare(&memory, number, shift, &name)
}

fn over(lengths: impl Iterator<Item = usize>, seed: u64) -> usize {
    let mut compared = 0;
    for (n, unit) in lengths.enumerate() {
        for (m, key) in KEY_LENGTHS.into_iter().enumerate() {
            for (k, number) in NUMBERS.into_iter().enumerate() {
                let seed = seed + (8 * n + 4 * m + k) as u64;
                compared += compare_lengths(key, unit, number, seed);
            }
        }
    }
    compared
}

/// The published vectors, both ways: the number is the front of the tweak.
#[test]
fn ieee() {
    let lines = lines("xts_ieee1619.txt");
    assert_eq!(lines.len(), 19);
    for line in lines {
        let [name, key, tweak, plain, enciphered] = &line[..] else {
            panic!("not five words: {line:?}");
        };
        let [key, tweak, plain, enciphered] = [key, tweak, plain, enciphered].map(|w| from_hex(w));
        assert_eq!(tweak[8..], [0; 8], "{name}");
        let number = u64::from_le_bytes(tweak[..8].try_into().expect("8 bytes"));
        let mut unit = plain.clone();
        assert_eq!(xts_encipher(&key, number, &mut unit), Ok(()), "{name}");
        assert!(unit == enciphered, "{name}");
        assert_eq!(xts_decipher(&key, number, &mut unit), Ok(()), "{name}");
        assert!(unit == plain, "{name}");
        let alone = plain.len() / 16 - usize::from(plain.len() % 16 != 0);
        for k in 0..alone {
            let block = xts_block(&key, number, &enciphered, k as u64);
            assert_eq!(block.unwrap(), plain[16 * k..][..16], "{name}, block {k}");
        }
    }
}

#[test]
fn every_length() {
    assert_eq!(over(16..=600, SEED), EVERY_LENGTH);
}

#[test]
fn long() {
    assert_eq!(over(LONG.into_iter(), SEED + 10_000), LONG_ONES);
}

/// Bytes that bring out a carry lost in doubling, or a zero taken for something
/// else, in both halves of the key and in the unit.
#[test]
fn extreme() {
    let patterns: [fn(usize) -> u8; 5] = [
        |_| 0x00,
        |_| 0xff,
        |_| 0x80,
        |i| if i % 16 == 15 { 0x80 } else { 0 },
        |i| if i % 16 == 0 { 0x01 } else { 0 },
    ];
    let of =
        |pattern: usize, length: usize| -> Vec<u8> { (0..length).map(patterns[pattern]).collect() };
    let mut compared = 0;
    for length in [16, 17, 31, 32, 33, 2_096] {
        for key in KEY_LENGTHS {
            for n in 0..125 {
                let memory = Memory {
                    xts_key: [of(n % 5, key / 2), of(n / 5 % 5, key / 2)].concat(),
                    text: of(n / 25, length),
                    ..Memory::default()
                };
                let name = || format!("patterns {n}, key {key}, unit {length}");
                compared += compare(&memory, NUMBERS[n % 4], n, &name);
            }
        }
    }
    assert_eq!(compared, EXTREME);
}

/// Of a unit of random bytes, every block that can be read alone is that of the
/// whole deciphering, and the first numbers that cannot are refused, as are some
/// far off, of which the last two, times 16, come back to 0 or 16 in 64 bits.
fn blocks_of(unit: usize, key: usize, step: usize, seed: u64) -> usize {
    let (memory, shift) = drawn(key, unit, seed);
    let number = NUMBERS[seed as usize % 4];
    let mut whole = memory.text.clone();
    assert_eq!(xts_decipher(&memory.xts_key, number, &mut whole), Ok(()));
    let alone = (unit / 16 - usize::from(unit % 16 != 0)) as u64;
    let far = [1 << 32, u64::MAX, 1 << 60, (1 << 60) + 1];
    let inside = (0..alone).step_by(step).chain(alone.checked_sub(1));
    let mut read = 0;
    for k in inside.chain([alone, alone + 1]).chain(far) {
        let call = Call {
            number,
            k,
            ..Call::of(What::XtsBlock)
        };
        let name = || format!("seed {seed:#x}, key {key}, unit {unit}, block {k}");
        let (answer, after) = agree(&call, &memory, shift, &name);
        let mut wanted = memory.clone();
        if k < alone {
            let at = 16 * k as usize;
            wanted.block.copy_from_slice(&whole[at..at + 16]);
            read += 1;
        }
        assert_eq!(answer, if k < alone { 0 } else { 17 }, "{}", name());
        assert!(after == wanted, "{}", name());
    }
    read
}

#[test]
fn every_block() {
    let mut read = 0;
    for unit in 16..=600 {
        for key in KEY_LENGTHS {
            read += blocks_of(unit, key, 1, SEED + 20_000 + unit as u64);
        }
    }
    for unit in LONG {
        read += blocks_of(unit, 64, 37, SEED + 30_000 + unit as u64);
    }
    assert_eq!(read, EVERY_BLOCK);
}

/// Nothing of the unit but the block is looked at: with every other byte
/// changed the answer is the same, and with a bit of the block it is another.
#[test]
fn block_alone() {
    for unit in [16, 32, 47, 48, 100, 2_096, 65_536] {
        let (memory, _) = drawn(32, unit, SEED + 40_000);
        let alone = unit / 16 - usize::from(unit % 16 != 0);
        for k in (0..alone).step_by(alone.div_ceil(8)) {
            let of = |unit: &[u8]| xts_block(&memory.xts_key, 7, unit, k as u64).unwrap();
            let read = of(&memory.text);
            let mut others: Vec<u8> = memory.text.iter().map(|byte| !byte).collect();
            others[16 * k..][..16].copy_from_slice(&memory.text[16 * k..][..16]);
            assert_eq!(of(&others), read, "unit of {unit}, block {k}");
            others[16 * k] ^= 1;
            assert_ne!(of(&others), read, "unit of {unit}, block {k}");
        }
    }
}

/// 02, order 3: 15, 16, and for a block 17, in this order; all lent memory is
/// kept.
#[test]
fn refusals() {
    let mut answered = [0; 18];
    for key in (0..=80).chain([96, 128, 4_096]) {
        for unit in [0, 1, 15, 16, 17, 31, 32, 65_536, 65_537, (1 << 20) + 16] {
            let (memory, shift) = drawn(key, unit, SEED + 50_000 + key as u64);
            for (what, k) in [
                (What::XtsEncipher, 0),
                (What::XtsDecipher, 0),
                (What::XtsBlock, 0),
                (What::XtsBlock, u64::MAX),
            ] {
                let alone = what != What::XtsBlock || k == 0 && ![17, 31].contains(&unit);
                let wanted = match (key, unit) {
                    (32 | 64, 16..=65_536) if alone => 0,
                    (32 | 64, 16..=65_536) => 17,
                    (32 | 64, _) => 16,
                    _ => 15,
                };
                let call = Call {
                    k,
                    ..Call::of(what)
                };
                let name = || format!("key {key}, unit {unit}, block {k}");
                let (answer, after) = agree(&call, &memory, shift, &name);
                assert_eq!(answer, wanted, "{what:?}, {}", name());
                assert_eq!(after == memory, wanted != 0, "{what:?}, {}", name());
                answered[answer as usize] += 1;
            }
        }
    }
    let taken = [2 * (3 * 5 - 2), 82 * 10 * 4, 2 * 5 * 4, 2 * (5 + 2)];
    assert_eq!([0, 15, 16, 17].map(|n| answered[n]), taken);
}

#[test]
fn refusal_carries_the_number() {
    for (key, unit, wanted, number) in [
        (48, 15, Refusal::XtsKeyLength, 15),
        (32, 15, Refusal::UnitLength, 16),
        (32, 17, Refusal::BlockNotAlone, 17),
    ] {
        let refusal = xts_block(&vec![0; key], 0, &vec![0; unit], 0).unwrap_err();
        assert_eq!((refusal, refusal.number()), (wanted, number));
    }
}

/// Threads that share a key and work on units of their own.
#[test]
fn several_threads() {
    std::thread::scope(|scope| {
        for thread in 0..4 {
            scope.spawn(move || {
                for n in 0..200 {
                    let (mut memory, shift) = drawn(64, 16 + n as usize, SEED + n);
                    memory.xts_key = Random::new(SEED).bytes(64);
                    compare(&memory, 200 * thread + n, shift, &|| format!("{n}"));
                }
            });
        }
    });
}

/// Rust allows it that what is only read is lent twice: the key as the unit.
#[test]
fn key_as_unit() {
    let key = Random::new(SEED).bytes(64);
    let mut whole = key.clone();
    assert_eq!(xts_decipher(&key, 5, &mut whole), Ok(()));
    for k in 0..4 {
        let block = xts_block(&key, 5, &key, k as u64);
        assert_eq!(block.unwrap(), whole[16 * k..][..16]);
    }
}
