//! FIPS 197, sections 5.1.1 and 5.3.2: the substitution table computed from
//! its rule, and its inverse found by turning it round.

use crate::field::inverse;

/// SBOX of section 5.1.1.
pub const S_BOX: [u8; 256] = s_box();

/// INVSBOX of section 5.3.2.
pub const INV_S_BOX: [u8; 256] = inv_s_box();

/// The affine step: bit i of the result is b[i] + b[i+4] + b[i+5] + b[i+6] +
/// b[i+7] + c[i], indices modulo 8, with c = 63 hex. Bit i + n of b is bit i
/// of b rotated right by n.
const fn affine(b: u8) -> u8 {
    b ^ b.rotate_right(4) ^ b.rotate_right(5) ^ b.rotate_right(6) ^ b.rotate_right(7) ^ 0x63
}

const fn s_box() -> [u8; 256] {
    let mut table = [0; 256];
    let mut b = 0;
    while b < 256 {
        table[b] = affine(inverse(b as u8));
        b += 1;
    }
    table
}

const fn inv_s_box() -> [u8; 256] {
    let mut table = [0; 256];
    let mut b = 0;
    while b < 256 {
        table[S_BOX[b] as usize] = b as u8;
        b += 1;
    }
    table
}

/// The table at `b`.
pub fn sub(b: u8) -> u8 {
    S_BOX[usize::from(b)]
}

/// The inverse table at `b`.
pub fn inv_sub(b: u8) -> u8 {
    INV_S_BOX[usize::from(b)]
}
