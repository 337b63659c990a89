//! The call that the layer above AES uses, against the second implementation
//! taken block by block.

use inputs::{Lent, Random};
use probe::aes_blocks;
use second::aes;

const SEED: u64 = 0x9b0b_e000;

/// Around the powers of two, a record's text (2,096) and a record (2,112), up
/// to 256 full blocks and 15 bytes.
const LONG: [usize; 22] = [
    127, 128, 129, 255, 256, 257, 511, 512, 1023, 1024, 1025, 2047, 2048, 2049, 2096, 2112, 3000,
    4080, 4095, 4096, 4097, 4111,
];

/// What the library leaves in the buffer, lent at an address that depends on
/// its length, and its number. The key must stay.
fn library(key: &[u8], back: bool, buffer: &[u8]) -> (u32, Vec<u8>) {
    let lent_key = Lent::new(key, 0);
    let mut lent = Lent::new(buffer, buffer.len() % 16);
    let answer = aes_blocks(lent_key.bytes(), back, lent.bytes_mut());
    assert_eq!(lent_key.after(), key, "the key changed");
    (answer.map_or_else(|n| n, |()| 0), lent.after())
}

/// The same of the second implementation, for a key of an allowed length.
fn by_second(key: &[u8], back: bool, buffer: &[u8]) -> (u32, Vec<u8>) {
    let mut buffer = buffer.to_vec();
    for block in buffer.chunks_exact_mut(16) {
        assert_eq!(aes(key, back, block), 0);
    }
    (0, buffer)
}

/// One length, both key sizes and both ways, and that each way undoes the
/// other.
fn compare(length: usize, seed: u64) {
    for key_length in [16, 32] {
        let mut random = Random::new(seed);
        let key = random.bytes(key_length);
        let buffer = random.bytes(length);
        let name = format!("seed {seed:#x}, key of {key_length} bytes, {length} bytes");
        for back in [false, true] {
            let ours = library(&key, back, &buffer);
            assert!(
                ours == by_second(&key, back, &buffer),
                "{name}, back {back}"
            );
            assert!(
                library(&key, !back, &ours.1) == (0, buffer.clone()),
                "not undone: {name}"
            );
            let rest = length - length % 16;
            assert_eq!(
                ours.1[rest..],
                buffer[rest..],
                "{name}, after the last full block"
            );
        }
    }
}

#[test]
fn short_buffers() {
    for length in 0..=100 {
        for n in 0..10 {
            compare(length, SEED + 10 * length as u64 + n);
        }
    }
}

#[test]
fn long_buffers() {
    for length in LONG {
        for n in 0..3 {
            compare(length, SEED + 10 * length as u64 + n);
        }
    }
}

/// Equal blocks come out equal: no block depends on its place or neighbours.
#[test]
fn blocks_stand_alone() {
    let mut random = Random::new(SEED);
    for key_length in [16, 32] {
        let key = random.bytes(key_length);
        let block = random.bytes(16);
        for back in [false, true] {
            let (_, one) = library(&key, back, &block);
            assert_eq!(
                library(&key, back, &block.repeat(256)),
                (0, one.repeat(256))
            );
        }
    }
}

/// 01's number 1, before anything else; the buffer is kept.
#[test]
fn refused_keys() {
    let mut random = Random::new(SEED);
    for key_length in (0..=70).filter(|n| ![16, 32].contains(n)) {
        for length in [0, 1, 15, 16, 17, 32, 100, 4111] {
            let key = random.bytes(key_length);
            let buffer = random.bytes(length);
            for back in [false, true] {
                let ours = library(&key, back, &buffer);
                assert!(
                    ours == (1, buffer.clone()),
                    "lengths {key_length} and {length}"
                );
            }
        }
    }
}
