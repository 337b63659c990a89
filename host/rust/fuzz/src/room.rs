//! Memory lent to the library. Each byte string stands in a yard of its own
//! between two pages that may not be touched at all, close to one of them, and
//! mostly against it: a read or a write past that end then faults. On the
//! other side, and in the gap if there is one, stand bytes that must stay; and
//! so beside each word and each place.

use crate::draw::{Drawn, KEY_MOST};
use crate::store::STORE_MOST;
use calls::{by_library, Lent, Memory};
use inputs::Random;
use std::hint::black_box;
use std::ops::Range;
use std::ptr::null_mut;

/// How many bytes beside a byte string are looked at.
const GUARD: usize = 64;

/// What stands beside each word, and each place.
const WORD_GUARD: u32 = 0xa55a_3cc3;
const PLACE_GUARD: u64 = 0xa55a_3cc3_96f0_0f69;

/// What a call returned and left, or what it changed that was not lent.
pub type Made = Result<(u32, Memory), String>;

/// No byte string needs alignment, so a gap may have any number of bytes.
pub const GAP_MOST: usize = 7;

/// Where in its yard a byte string stands.
#[derive(Clone, Copy, Debug)]
pub struct Near {
    /// At the end, or at the front.
    pub at_end: bool,
    /// Bytes between the string and that end, or the front.
    pub gap: usize,
}

struct Yard {
    bytes: &'static mut [u8],
    from: usize,
    end: usize,
    guard: [u8; GUARD],
}

impl Yard {
    fn open(longest: usize) -> Self {
        let mut guard = [0; GUARD];
        Random::new(longest as u64).fill(&mut guard);
        Self {
            bytes: mapped(GAP_MOST + longest + GUARD),
            from: 0,
            end: 0,
            guard,
        }
    }

    /// A copy of the bytes, with guarding bytes around it.
    fn lend(&mut self, bytes: &[u8], near: Near) -> &mut [u8] {
        self.from = match near.at_end {
            true => self.bytes.len() - near.gap - bytes.len(),
            false => near.gap,
        };
        self.end = self.from + bytes.len();
        let (from, end) = (self.from, self.end);
        for beside in self.beside() {
            let length = beside.len();
            self.bytes[beside].copy_from_slice(&self.guard[..length]);
        }
        self.bytes[from..end].copy_from_slice(bytes);
        &mut self.bytes[from..end]
    }

    fn beside(&self) -> [Range<usize>; 2] {
        let behind = self.bytes.len().min(self.end + GUARD);
        [self.from.saturating_sub(GUARD)..self.from, self.end..behind]
    }

    /// What the call has left, if no byte beside it was changed.
    fn back(&self, name: &str) -> Result<Vec<u8>, String> {
        let bytes = black_box(&*self.bytes);
        for beside in self.beside() {
            let kept = bytes[beside.clone()] == self.guard[..beside.len()];
            if !kept {
                return Err(format!("a byte beside the {name} changed"));
            }
        }
        Ok(bytes[self.from..self.end].to_vec())
    }
}

/// As many bytes as asked for, up to a whole page, between two pages that may
/// not be touched.
fn mapped(least: usize) -> &'static mut [u8] {
    extern "C" {
        fn mmap(at: *mut u8, n: usize, access: i32, flags: i32, file: i32, from: i64) -> *mut u8;
        fn mprotect(at: *mut u8, n: usize, access: i32) -> i32;
    }
    const PAGE: usize = 4_096;
    const NONE: i32 = 0;
    const READ_AND_WRITE: i32 = 3;
    const PRIVATE_AND_ANONYMOUS: i32 = 0x22;
    let size = least.next_multiple_of(PAGE);
    // SAFETY: the pages are new ones, and belong to nobody else. Those between
    // the first and the last are readable and writable from here on, and zero.
    unsafe {
        let all = size + 2 * PAGE;
        let first = mmap(null_mut(), all, NONE, PRIVATE_AND_ANONYMOUS, -1, 0);
        assert!(first as isize != -1, "no memory to lend");
        let bytes = first.add(PAGE);
        let opened = mprotect(bytes, size, READ_AND_WRITE);
        assert_eq!(opened, 0, "no memory to lend");
        std::slice::from_raw_parts_mut(bytes, size)
    }
}

/// The words and the place that are lent, each between two that must stay.
struct Numbers {
    words: [u32; 13],
    places: [u64; 3],
}

impl Numbers {
    fn new(memory: &Memory) -> Self {
        let word = |at: usize| match at % 2 {
            1 => memory.words[at / 2],
            _ => WORD_GUARD,
        };
        Self {
            words: std::array::from_fn(word),
            places: [PLACE_GUARD, memory.place, PLACE_GUARD],
        }
    }

    fn lent(&mut self) -> ([&mut u32; 6], &mut u64) {
        let [_, w0, _, w1, _, w2, _, w3, _, w4, _, w5, _] = self.words.each_mut();
        ([w0, w1, w2, w3, w4, w5], &mut self.places[1])
    }

    fn back(&self) -> Result<([u32; 6], u64), String> {
        let mut beside = self.words.iter().step_by(2);
        let [low, place, high] = self.places;
        if beside.any(|word| *word != WORD_GUARD) || [low, high] != [PLACE_GUARD; 2] {
            return Err("a number beside one that is lent changed".to_owned());
        }
        Ok((std::array::from_fn(|k| self.words[2 * k + 1]), place))
    }
}

/// A yard for each byte string: the keys, the associated data, the text, the
/// block and the store.
pub struct Room([Yard; 7]);

impl Room {
    pub fn open() -> Self {
        let keys = [KEY_MOST; 3];
        let [old, new, xts] = keys.map(Yard::open);
        let [data, text, block, store] = [1_100, 65_537, 16, STORE_MOST].map(Yard::open);
        Self([old, new, xts, data, text, block, store])
    }

    /// Makes the call by the library, on a copy of the memory: what it
    /// returns, and the memory after it.
    pub fn made(&mut self, drawn: &Drawn, memory: &Memory, near: Near) -> Made {
        let [old, new, xts, data, text, block, store] = &mut self.0;
        let mut numbers = Numbers::new(memory);
        // Whoever has its address may write to all of it, for all that the
        // compiler knows: that is what is looked at afterwards.
        let numbers = black_box(&mut numbers);
        let (words, place) = numbers.lent();
        let old_key = &*old.lend(&memory.old_key[..drawn.old_key], near);
        let new_key = &*new.lend(&memory.new_key[..drawn.new_key], near);
        let lent = Lent {
            old_key,
            new_key: if drawn.one_key { old_key } else { new_key },
            xts_key: xts.lend(&memory.xts_key[..drawn.xts_key], near),
            data: data.lend(&memory.data, near),
            text: text.lend(&memory.text, near),
            block: (block.lend(&memory.block, near).try_into()).expect("16 bytes"),
            store: store.lend(&memory.store[..drawn.store], near),
            place,
            words,
        };
        let number = by_library(&drawn.call, lent);
        let mut after = memory.clone();
        after.old_key[..drawn.old_key].copy_from_slice(&old.back("old key")?);
        after.new_key[..drawn.new_key].copy_from_slice(&new.back("new key")?);
        after.xts_key[..drawn.xts_key].copy_from_slice(&xts.back("XTS key")?);
        after.data = data.back("associated data")?;
        after.text = text.back("text")?;
        after.block.copy_from_slice(&block.back("block")?);
        after.store[..drawn.store].copy_from_slice(&store.back("store")?);
        (after.words, after.place) = black_box(numbers).back()?;
        Ok((number, after))
    }
}

#[cfg(test)]
mod tests {
    use super::{Near, Yard, GAP_MOST};

    const BYTES: [u8; 3] = [1, 2, 3];

    /// At either end, with each gap: the string stands where it is asked for,
    /// comes back, and a byte changed on either side of it is noticed.
    #[test]
    fn notices() {
        let mut yard = Yard::open(BYTES.len());
        for (at_end, gap) in (0..=GAP_MOST).flat_map(|gap| [(false, gap), (true, gap)]) {
            let lent = yard.lend(&BYTES, Near { at_end, gap });
            lent[1] = 7;
            assert_eq!(yard.back("string"), Ok(vec![1, 7, 3]));
            let behind = yard.bytes.len() - yard.end;
            assert_eq!(if at_end { behind } else { yard.from }, gap);
            for beside in yard.beside().into_iter().flatten() {
                yard.bytes[beside] ^= 1;
                assert!(yard.back("string").is_err(), "byte {beside}");
                yard.bytes[beside] ^= 1;
            }
        }
    }
}
