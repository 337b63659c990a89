//! Bytes read as a script of choices. All bytes are a script: a choice made
//! after their end reads as zeros. Bytes drawn at random make good scripts,
//! since what is read from them leans to what 01 allows and to its edges.

/// How many lengths count as few, from the least of them.
const FEW: usize = 32;

/// The lengths that a byte string is lent with: mostly few bytes, often an
/// edge of 01, sometimes any length up to the most.
pub struct Lengths {
    few: usize,
    edges: &'static [usize],
    most: usize,
}

pub const TEXT: Lengths = Lengths {
    few: 16,
    edges: &[
        0, 15, 16, 17, 31, 32, 33, 2_048, 2_049, 2_064, 2_065, 2_095, 2_096, 2_097,
    ],
    most: 2_200,
};
pub const DATA: Lengths = Lengths {
    few: 0,
    edges: &[0, 1, 15, 16, 17, 1_023, 1_024, 1_025],
    most: 1_100,
};
pub const MESSAGE: Lengths = Lengths {
    few: 16,
    edges: &[0, 15, 16, 17, 2_048, 2_049, 2_064, 2_065, 4_112, 4_113],
    most: 4_200,
};
pub const UNIT: Lengths = Lengths {
    few: 16,
    edges: &[0, 15, 16, 17, 31, 32, 33, 2_096, 2_097, 4_112, 4_113],
    most: 4_200,
};
/// The longest messages and units.
pub const LONG_MESSAGE: Lengths = Lengths {
    few: 65_505,
    edges: &[65_535, 65_536, 65_537],
    most: 65_537,
};

pub struct Script<'a> {
    left: &'a [u8],
}

impl<'a> Script<'a> {
    pub fn new(bytes: &'a [u8]) -> Self {
        Self { left: bytes }
    }

    pub fn ended(&self) -> bool {
        self.left.is_empty()
    }

    pub fn byte(&mut self) -> u8 {
        let Some((first, rest)) = self.left.split_first() else {
            return 0;
        };
        self.left = rest;
        *first
    }

    /// A number of up to 8 bytes, the low one first.
    pub fn number(&mut self, bytes: usize) -> u64 {
        (0..bytes).fold(0, |n, i| n | u64::from(self.byte()) << (8 * i))
    }

    /// Below a number that is not 0, from two bytes.
    pub fn below(&mut self, n: usize) -> usize {
        self.number(2) as usize % n
    }

    /// So many of 256 times.
    pub fn chance(&mut self, of_256: u8) -> bool {
        self.byte() < of_256
    }

    pub fn length(&mut self, lengths: &Lengths) -> usize {
        let choice = usize::from(self.byte());
        match choice {
            ..192 => lengths.few + choice % FEW,
            192..244 => lengths.edges[choice % lengths.edges.len()],
            _ => self.number(3) as usize % (lengths.most + 1),
        }
    }
}
