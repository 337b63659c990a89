//! Texts for the traces. Most are short, since they cost less time.

use crate::list::{LONGEST, SHORTEST};
use inputs::Random;

/// A text that a sheet can have: now and then on either side of a block, of
/// block 129 with its new mask, or of the longest.
pub fn fitting(random: &mut Random) -> Vec<u8> {
    let length = match random.below(16) {
        0 => random.pick(&[16, 17, 2_064, 2_080, 2_095, 2_096]),
        1 => SHORTEST + random.below(LONGEST - SHORTEST + 1),
        _ => SHORTEST + random.below(50),
    };
    random.bytes(length)
}

/// A text that an operator gives: now and then too short or too long.
pub fn given(random: &mut Random) -> Vec<u8> {
    let length = match random.below(64) {
        0 => random.below(SHORTEST),
        1 => LONGEST + 1 + random.below(70_000),
        2 | 3 => random.pick(&[0, SHORTEST - 1, LONGEST + 1, 2_112]),
        _ => return fitting(random),
    };
    random.bytes(length)
}
