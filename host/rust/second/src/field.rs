//! FIPS 197, section 4: bytes as polynomials over {0, 1}, added by xor and
//! multiplied modulo x^8 + x^4 + x^3 + x + 1.

/// Section 4.2: x times `b`.
pub const fn xtimes(b: u8) -> u8 {
    let shifted = b << 1;
    if b & 0x80 == 0 {
        shifted
    } else {
        shifted ^ 0x1b
    }
}

/// Section 4.2: the product, as the sum of x^i · `a` over the bits i of `b`.
pub const fn times(a: u8, b: u8) -> u8 {
    let mut sum = 0;
    let mut term = a;
    let mut bits = b;
    while bits != 0 {
        if bits & 1 == 1 {
            sum ^= term;
        }
        term = xtimes(term);
        bits >>= 1;
    }
    sum
}

/// Section 4.4: the inverse, with 0 kept. The 255 bytes other than 0 are a
/// group under `times`, so b^254 · b = 1.
pub const fn inverse(b: u8) -> u8 {
    let mut power = 1;
    let mut exponent = 0;
    while exponent < 254 {
        power = times(power, b);
        exponent += 1;
    }
    power
}

/// The products by each factor below 16, computed once: the matrices of the
/// cipher have no other.
pub static PRODUCTS: [[u8; 256]; 16] = products();

const fn products() -> [[u8; 256]; 16] {
    let mut table = [[0; 256]; 16];
    let mut at = 0;
    while at < 16 * 256 {
        table[at / 256][at % 256] = times(at as u8, (at / 256) as u8);
        at += 1;
    }
    table
}
