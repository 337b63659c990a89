//! What the modes share: blocks of 16 bytes, xored and doubled.

use std::array::from_fn;

/// The bytes of a block; in the field of 2^128 elements byte 0 is the low end.
pub type Block = [u8; 16];

/// Mult-by-alpha: 000, section 5.1; IEEE 1619-2007, 5.2. EME-32-AES has the
/// same.
#[must_use]
pub fn double(x: Block) -> Block {
    let mut y = from_fn(|i| {
        let carry = i > 0 && x[i - 1] > 127;
        x[i].wrapping_mul(2) + u8::from(carry)
    });
    if x[15] > 127 {
        y[0] ^= 0x87;
    }
    y
}

/// Sixteen bytes as a block.
pub fn block(bytes: &[u8]) -> Block {
    bytes.try_into().expect("16 bytes")
}

/// The xor of two blocks.
pub fn xor(a: Block, b: Block) -> Block {
    from_fn(|i| a[i] ^ b[i])
}
