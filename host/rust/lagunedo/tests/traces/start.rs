//! What a trace starts from: a store that passes the check, its list, and
//! copies of the job.

use crate::list::{List, Sheet};
use crate::texts;
use inputs::Random;
use second::record::{written, CLEAR, NEW, OLD, RECORD};

/// The two keys of a trace.
pub struct Keys {
    pub old: Vec<u8>,
    pub new: Vec<u8>,
}

impl Keys {
    pub fn lent(&self) -> second::Keys<'_> {
        second::Keys {
            old: &self.old,
            new: &self.new,
        }
    }
}

pub struct Start {
    pub keys: Keys,
    pub store: Vec<u8>,
    pub list: List,
    /// The places of the copies of the job.
    pub copies: Vec<u64>,
    /// The sheet numbers that the trace mostly asks for, some more than there
    /// are slots.
    pub numbers: Vec<u32>,
}

impl Start {
    /// A store of so many slots, and keys of these lengths.
    pub fn draw(random: &mut Random, slots: usize, key_lengths: [usize; 2]) -> Self {
        let [old, new] = key_lengths.map(|length| random.bytes(length));
        let keys = Keys { old, new };
        let numbers = numbers(slots);
        let free = random.pick(&[2, 4, 1_000]);
        let mut places = Vec::new();
        let mut store = Vec::new();
        for number in random.some_of(numbers.clone(), slots) {
            let sheet = (!random.one_in(free)).then(|| sheet(random, number));
            let mark = random.pick(&[CLEAR, OLD, NEW]);
            store.extend(match &sheet {
                Some(s) => written(s.number, s.revision, mark, &s.text, keys.lent()),
                None => vec![0; RECORD],
            });
            places.push(sheet);
        }
        Self {
            keys,
            store,
            list: List { places },
            copies: copies(random, slots),
            numbers,
        }
    }
}

/// Mostly small, so that calls find a sheet; a few at the other end.
fn numbers(slots: usize) -> Vec<u32> {
    let small = 1..=slots as u32 + 3;
    small.chain([1 << 31, u32::MAX - 1, u32::MAX]).collect()
}

fn sheet(random: &mut Random, number: u32) -> Sheet {
    let revision = match random.below(16) {
        0 | 1 => u32::MAX,
        2 => u32::MAX - 1,
        3 => random.pick(&[65_534, 65_535, 65_536]),
        4 => (random.word() as u32).max(1),
        5 => 1 + random.below(65_535) as u32,
        6 | 7 => 2 + random.below(8) as u32,
        _ => 1,
    };
    Sheet {
        number,
        revision,
        text: texts::fitting(random),
    }
}

/// One to four copies. Most begin at place 0, as a new one does; others stand
/// anywhere in the store, at its end or far past it.
fn copies(random: &mut Random, slots: usize) -> Vec<u64> {
    let end = slots as u64;
    let outside = [end, end + 1, u64::MAX - 1, u64::MAX];
    let copies = 1 + random.below(4);
    let place = |_| match random.below(6) {
        0 => random.pick(&outside),
        1 => random.below(slots + 1) as u64,
        _ => 0,
    };
    (0..copies).map(place).collect()
}
