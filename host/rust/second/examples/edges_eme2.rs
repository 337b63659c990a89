//! Writes the lines that the program `edges_eme2` of this repository must print,
//! by the second implementation: each call of EME2 on both sides of every
//! edge of its refusals and of the wide block. A test holds
//! `crates/edges_eme2/stdout` to what is written here.

use second::eme2;
use std::fmt::Write;

/// None, and beside the two lengths of a key that 01 takes.
const KEYS: [usize; 7] = [0, 47, 48, 49, 63, 64, 65];

/// None, and beside one block and the longest associated data.
const DATA: [usize; 7] = [0, 1, 15, 16, 17, 1_024, 1_025];

/// Beside the shortest and the longest message, and beside blocks 129 and 257,
/// where a new mask begins.
const MESSAGES: [usize; 11] = [
    15, 16, 17, 2_048, 2_049, 2_064, 2_065, 4_096, 4_112, 65_536, 65_537,
];

/// A pattern of some length: it goes on by `by` from `from`, and by one more
/// each 256 bytes.
fn pattern(by: usize, from: usize, length: usize) -> Vec<u8> {
    let byte = |i| ((i * by + i / 256 + from) % 256) as u8;
    (0..length).map(byte).collect()
}

/// The bytes, each and one more, as the digits of base 257, modulo a prime.
fn digest(bytes: &[u8]) -> u64 {
    let step = |h, &x| (h * 257 + u64::from(x) + 1) % 2_147_483_647;
    bytes.iter().fold(0, step)
}

/// The lines, each of one call.
fn text() -> String {
    let mut text = String::new();
    for key in KEYS.map(|length| pattern(7, 1, length)) {
        for ad in DATA.map(|length| pattern(11, 5, length)) {
            for message in MESSAGES.map(|length| pattern(3, 0, length)) {
                for back in [false, true] {
                    text += &line(back, &key, &ad, &message);
                }
            }
        }
    }
    text
}

/// One call, and what it left of the message.
fn line(back: bool, key: &[u8], ad: &[u8], message: &[u8]) -> String {
    let [k, a, m] = [key, ad, message].map(<[u8]>::len);
    let direction = if back { "decipher" } else { "encipher" };
    let mut after = message.to_vec();
    let number = eme2(key, back, ad, &mut after);
    let mut line = format!("key {k} data {a} message {m} {direction} {number}");
    if number == 0 {
        write!(line, " {:08x}", digest(&after)).expect("a string takes all");
        let undone = eme2(key, !back, ad, &mut after) == 0 && after == message;
        line += if undone { " undone\n" } else { " NOT UNDONE\n" };
    } else {
        let kept = after == message;
        line += if kept { " kept\n" } else { " CHANGED\n" };
    }
    line
}

fn main() {
    print!("{}", text());
}

#[cfg(test)]
mod tests {
    use super::text;
    use std::path::Path;

    /// The file is what this program writes, byte for byte.
    #[test]
    fn file_as_written() {
        let file = Path::new(env!("CARGO_MANIFEST_DIR")).join("../../../crates/edges_eme2/stdout");
        let kept = std::fs::read_to_string(file);
        assert!(kept.is_ok_and(|kept| kept == text()));
    }
}
