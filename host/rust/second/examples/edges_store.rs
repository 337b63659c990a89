//! Writes the lines that the program `edges_store` of this repository must
//! print, by the second store: the calls of its script, `crates/edges_store/stdin`,
//! on both sides of every edge of their refusals, of a record's fields and of
//! the rekeying job. A test holds `crates/edges_store/stdout` to what is
//! written here.

use second::record::{LEAD, RECORD};
use second::{add, check, eme2, read, remove, revise, step, Checked, Counts, Keys};

/// The calls to make, a line each.
const SCRIPT: &str = include_str!("../../../../crates/edges_store/stdin");

/// What stands behind a pointer before a call.
const BEFORE: u32 = 9;

/// Bytes of 1,025 slots, the longest store of the script.
const MOST: usize = 1_025 * RECORD;

/// What the script works on: the keys, and a store at the front of the bytes.
struct Desk {
    bytes: Vec<u8>,
    length: usize,
    old: Vec<u8>,
    new: Vec<u8>,
}

impl Desk {
    /// Nothing set, and all bytes 0.
    fn new() -> Self {
        let (old, new) = (Vec::new(), Vec::new());
        let (bytes, length) = (vec![0; MOST], 0);
        Self {
            bytes,
            length,
            old,
            new,
        }
    }

    /// The two keys and the store.
    fn lent(&mut self) -> (Keys<'_>, &mut [u8]) {
        let (old, new) = (&self.old, &self.new);
        (Keys { old, new }, &mut self.bytes[..self.length])
    }

    /// What a line adds to itself, if it is a call.
    fn run(&mut self, line: &str) -> String {
        let word = line.split(' ').next().unwrap_or_default();
        let n = numbers(line);
        let before = self.bytes.clone();
        let (number, rest) = match word {
            "check" => self.check(),
            "read" => self.read(as_u32(n[0]), as_usize(n[1])),
            "add" => self.add(as_u32(n[0]), as_usize(n[1]), n[2]),
            "revise" => self.revise(as_u32(n[0]), as_u32(n[1]), as_usize(n[2]), n[3]),
            "remove" => (number(&remove(self.lent().1, as_u32(n[0]))), String::new()),
            "step" => self.step(n[0]),
            _ => {
                self.set_up(word, &n);
                return String::new();
            }
        };
        let store = digest(self.lent().1);
        let kept = kept(number, self.bytes == before);
        format!(": {number}{rest} store {store:08x}{kept}")
    }

    /// What no call of the store does.
    fn set_up(&mut self, word: &str, n: &[u64]) {
        match word {
            "keys" => {
                self.old = pattern(1, as_usize(n[0]));
                self.new = pattern(100, as_usize(n[1]));
            }
            "store" => self.length = as_usize(n[0]),
            "write" => {
                let bytes = pattern(n[2], as_usize(n[1]));
                self.bytes[as_usize(n[0])..][..bytes.len()].copy_from_slice(&bytes);
            }
            "seal" => {
                let record = &mut self.bytes[as_usize(n[0])..][..as_usize(n[1])];
                let (lead, text) = record.split_at_mut(LEAD);
                assert_eq!(eme2(&self.old, false, lead, text), 0);
            }
            _ => assert_eq!(word, "#"),
        }
    }

    fn check(&mut self) -> (u32, String) {
        let [mut fault, mut used, mut free, mut clear, mut old, mut new] = [BEFORE; 6];
        let number = match check(self.lent().1) {
            Ok(Checked::Sound(counts)) => {
                Counts {
                    used,
                    free,
                    clear,
                    old,
                    new,
                } = counts;
                0
            }
            Ok(Checked::Faulty(k)) => {
                fault = k;
                256
            }
            Err(number) => number,
        };
        let counts = format!("used {used} free {free} clear {clear} old {old} new {new}");
        (number, format!(" fault {fault} {counts}"))
    }

    fn read(&mut self, sheet: u32, length: usize) -> (u32, String) {
        let mut text = pattern(200, length);
        let (keys, store) = self.lent();
        let found = read(keys, store, sheet, &mut text);
        let number = number(&found);
        let (length, revision) = found.map_or((BEFORE, BEFORE), |f| (f.length, f.revision));
        let kept = kept(number, text == pattern(200, text.len()));
        let text = digest(&text);
        (
            number,
            format!(" length {length} revision {revision} text {text:08x}{kept}"),
        )
    }

    fn add(&mut self, sheet: u32, length: usize, from: u64) -> (u32, String) {
        let (keys, store) = self.lent();
        revision(add(keys, store, sheet, &pattern(from, length)))
    }

    fn revise(&mut self, sheet: u32, seen: u32, length: usize, from: u64) -> (u32, String) {
        let (keys, store) = self.lent();
        revision(revise(keys, store, sheet, seen, &pattern(from, length)))
    }

    fn step(&mut self, mut place: u64) -> (u32, String) {
        let (keys, store) = self.lent();
        let outcome = step(keys, store, &mut place);
        let number = number(&outcome);
        let outcome = outcome.map_or(BEFORE, |outcome| outcome as u32);
        (number, format!(" outcome {outcome} place {place}"))
    }
}

/// What add and revise answer.
fn revision(stored: Result<u32, u32>) -> (u32, String) {
    let revision = stored.unwrap_or(BEFORE);
    (number(&stored), format!(" revision {revision}"))
}

/// 0, or the number of a refusal.
fn number<T>(answer: &Result<T, u32>) -> u32 {
    answer.as_ref().err().copied().unwrap_or(0)
}

/// After a refusal, whether all is as it was.
fn kept(number: u32, same: bool) -> &'static str {
    match (number, same) {
        (0, _) => "",
        (_, true) => " kept",
        (_, false) => " CHANGED",
    }
}

/// A pattern of some length: it goes on by three from a byte, and by one more
/// each 256 bytes.
fn pattern(from: u64, length: usize) -> Vec<u8> {
    let byte = |i| ((i * 3 + i / 256 + as_usize(from)) % 256) as u8;
    (0..length).map(byte).collect()
}

/// The bytes, each and one more, as the digits of base 257, modulo a prime.
fn digest(bytes: &[u8]) -> u64 {
    let step = |h, &x| (h * 257 + u64::from(x) + 1) % 2_147_483_647;
    bytes.iter().fold(0, step)
}

/// The numbers of a line.
fn numbers(line: &str) -> Vec<u64> {
    let digits = line.split(|c: char| !c.is_ascii_digit());
    digits.filter_map(|digits| digits.parse().ok()).collect()
}

fn as_u32(n: u64) -> u32 {
    u32::try_from(n).expect("no larger number is in the script")
}

fn as_usize(n: u64) -> usize {
    usize::try_from(n).expect("a length of the script")
}

/// The lines, each with what its call answers.
fn text() -> String {
    let mut desk = Desk::new();
    let line = |line| format!("{line}{}\n", desk.run(line));
    SCRIPT.lines().map(line).collect()
}

fn main() {
    print!("{}", text());
}

#[cfg(test)]
mod tests {
    use super::text;
    use std::path::Path;

    /// The file is what this program writes, byte for byte.
    #[test]
    fn file_as_written() {
        let file = Path::new(env!("CARGO_MANIFEST_DIR")).join("../../../crates/edges_store/stdout");
        let kept = std::fs::read_to_string(file);
        assert!(kept.is_ok_and(|kept| kept == text()));
    }
}
