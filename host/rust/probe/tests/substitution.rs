//! The substitution as the running code works it out, the same looked up in
//! the library's tables, and the second implementation's: all three agree on
//! every byte, both ways, wherever in a buffer of whatever length it stands.

use inputs::{Lent, Random};
use probe::{look_up, substitute};
use second::{inv_sub, sub};

const SEED: u64 = 0x5b0_c5e5;

/// Bytes go in groups, in parts of groups and alone: every length up to some
/// groups of 128, and around the 256 bytes that sixteen blocks have.
const EVERY_LENGTH: usize = 600;

/// What a call leaves in the buffer, lent at an address that depends on its
/// length.
fn after(call: fn(bool, &mut [u8]), back: bool, buffer: &[u8]) -> Vec<u8> {
    let mut lent = Lent::new(buffer, buffer.len() % 16);
    call(back, lent.bytes_mut());
    lent.after()
}

fn by_second(back: bool, buffer: &[u8]) -> Vec<u8> {
    let entry = if back { inv_sub } else { sub };
    buffer.iter().map(|&b| entry(b)).collect()
}

/// One buffer, both ways, and that each way undoes the other.
fn compare(buffer: &[u8], name: &str) {
    for back in [false, true] {
        let worked_out = after(substitute, back, buffer);
        assert!(worked_out == after(look_up, back, buffer), "{name}");
        assert!(worked_out == by_second(back, buffer), "{name}, second");
        let undone = after(substitute, !back, &worked_out);
        assert!(undone == buffer, "not undone: {name}");
    }
}

#[test]
fn every_byte() {
    let all: Vec<u8> = (0..=255).collect();
    compare(&all, "all bytes in their order");
    for byte in 0..=255 {
        compare(&[byte], &format!("{byte:02x} alone"));
    }
}

/// All 256 bytes at each place of a longer buffer, among all others.
#[test]
fn every_byte_at_every_place() {
    for shift in 0..=255_u8 {
        let turned: Vec<u8> = (0..=255).cycle().skip(shift.into()).take(512).collect();
        compare(&turned, &format!("all bytes, from {shift:02x} on"));
    }
}

#[test]
fn every_length() {
    for length in 0..=EVERY_LENGTH {
        let seed = SEED + length as u64;
        let buffer = Random::new(seed).bytes(length);
        compare(&buffer, &format!("seed {seed:#x}, {length} bytes"));
    }
}

/// A byte depends on none beside it: alone among zeros it gives the same.
#[test]
fn bytes_stand_alone() {
    let mut random = Random::new(SEED);
    for length in [16, 128, 256, 300] {
        let buffer = random.bytes(length);
        for back in [false, true] {
            let whole = after(substitute, back, &buffer);
            for at in 0..length {
                let mut other = vec![0; length];
                other[at] = buffer[at];
                assert_eq!(after(substitute, back, &other)[at], whole[at]);
            }
        }
    }
}
