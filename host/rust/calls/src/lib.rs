//! Every call of `lagunedo.h` as one thing, so that the tests and the fuzz
//! body make it as C does, by the safe functions and by the second
//! implementation alike, and compare what it returns and every byte of what it
//! was lent.

mod library;
mod safe;
mod second;

pub use lagunedo::FAULT;
pub use library::by_library;
pub use safe::by_safe;
pub use second::by_second;

/// The calls.
#[derive(Clone, Copy, Debug, Eq, Ord, PartialEq, PartialOrd)]
#[allow(missing_docs)] // the names are the header's
pub enum What {
    AesEncipher,
    AesDecipher,
    Eme2Encipher,
    Eme2Decipher,
    Check,
    Read,
    Add,
    Revise,
    Remove,
    Step,
    JobStep,
    XtsEncipher,
    XtsDecipher,
    XtsBlock,
    AddXts,
}

/// 01, order, and 02, order 3: the numbers that each call returns in place of a
/// result, in the order in which it tests them. Read has 14 as its last, which
/// never comes about.
pub const ORDER: [(What, &[u32]); 15] = [
    (What::AesEncipher, &[1, 2]),
    (What::AesDecipher, &[1, 2]),
    (What::Eme2Encipher, &[1, 2, 3]),
    (What::Eme2Decipher, &[1, 2, 3]),
    (What::Check, &[4]),
    (What::Read, &[1, 4, 5, 7, 12, 13]),
    (What::Add, &[1, 4, 5, 6, 11, 10]),
    (What::Revise, &[1, 4, 5, 6, 7, 12, 8, 9]),
    (What::Remove, &[4, 5, 7]),
    (What::Step, &[1, 4]),
    (What::JobStep, &[1, 4]),
    (What::XtsEncipher, &[15, 16]),
    (What::XtsDecipher, &[15, 16]),
    (What::XtsBlock, &[15, 16, 17]),
    (What::AddXts, &[15, 16, 1, 4, 5, 6, 11, 10]),
];

impl What {
    /// For AES and the transforms, the call that undoes this one.
    #[must_use]
    pub const fn undoing(self) -> Option<Self> {
        match self {
            Self::AesEncipher => Some(Self::AesDecipher),
            Self::AesDecipher => Some(Self::AesEncipher),
            Self::Eme2Encipher => Some(Self::Eme2Decipher),
            Self::Eme2Decipher => Some(Self::Eme2Encipher),
            Self::XtsEncipher => Some(Self::XtsDecipher),
            Self::XtsDecipher => Some(Self::XtsEncipher),
            _ => None,
        }
    }

    /// Whether it is a step of the job, by its place or with its job lent.
    #[must_use]
    pub const fn is_step(self) -> bool {
        matches!(self, Self::Step | Self::JobStep)
    }
}

/// A call, with what it is given by value. One that does not take a number
/// ignores it.
#[derive(Clone, Copy, Debug)]
pub struct Call {
    /// Which one.
    pub what: What,
    /// The sheet's number.
    pub sheet: u32,
    /// The revision that the operator saw.
    pub seen: u32,
    /// The number of a unit.
    pub number: u64,
    /// Which block of the unit.
    pub k: u64,
}

impl Call {
    /// With 0 for every number.
    #[must_use]
    pub const fn of(what: What) -> Self {
        Self {
            what,
            sheet: 0,
            seen: 0,
            number: 0,
            k: 0,
        }
    }
}

/// What is lent to a call, which takes of it what it needs. AES and EME2 take
/// the old key, and the text for their block or message. The calls of XTS take
/// the XTS key, and the text for their unit; one block of it goes to `block`.
/// The words are for the numbers that a call answers, from the first: check has
/// its slot and then its counts, read the length and the revision, what adds or
/// revises the revision, a step its outcome.
#[allow(missing_docs)] // the names say it
pub struct Lent<'a> {
    pub old_key: &'a [u8],
    pub new_key: &'a [u8],
    pub xts_key: &'a [u8],
    pub data: &'a [u8],
    pub store: &'a mut [u8],
    pub text: &'a mut [u8],
    pub block: &'a mut [u8; 16],
    pub place: &'a mut u64,
    pub words: [&'a mut u32; 6],
}

/// Memory to lend.
#[derive(Clone, Debug, Default, Eq, PartialEq)]
#[allow(missing_docs)] // the names say it
pub struct Memory {
    pub old_key: Vec<u8>,
    pub new_key: Vec<u8>,
    pub xts_key: Vec<u8>,
    pub data: Vec<u8>,
    pub store: Vec<u8>,
    pub text: Vec<u8>,
    pub block: [u8; 16],
    pub place: u64,
    pub words: [u32; 6],
}

impl Memory {
    /// All of it, lent.
    pub fn lent(&mut self) -> Lent<'_> {
        Lent {
            old_key: &self.old_key,
            new_key: &self.new_key,
            xts_key: &self.xts_key,
            data: &self.data,
            store: &mut self.store,
            text: &mut self.text,
            block: &mut self.block,
            place: &mut self.place,
            words: self.words.each_mut(),
        }
    }

    /// Where the other one first differs, in words.
    #[must_use]
    pub fn difference(&self, other: &Self) -> Option<String> {
        for (name, ours, theirs) in [
            ("old key", &self.old_key[..], &other.old_key[..]),
            ("new key", &self.new_key, &other.new_key),
            ("XTS key", &self.xts_key, &other.xts_key),
            ("associated data", &self.data, &other.data),
            ("store", &self.store, &other.store),
            ("text", &self.text, &other.text),
            ("block", &self.block, &other.block),
        ] {
            if ours == theirs {
                continue;
            }
            let mut pairs = ours.iter().zip(theirs);
            let at = pairs.position(|(a, b)| a != b);
            return Some(format!("the {name} differs, first at byte {at:?}"));
        }
        if self.place != other.place {
            return Some(format!("place {} and {}", self.place, other.place));
        }
        let words = [self.words, other.words];
        (self.words != other.words).then(|| format!("words {words:?}"))
    }
}
