//! XTS-AES, from IEEE 1619-2007: one data unit, both ways, and one block of it
//! by itself. The two directions are written out apart, as the standard has
//! them, with its names: a unit is P0 | P1 | .. | Pm, where only Pm is not a
//! full block and may be empty; i is the unit's number, and j a block's.

use crate::block::{block, double, xor, Block};
use crate::cipher::{cipher, inv_cipher};
use crate::schedule::{key_expansion, Word};
use crate::{BLOCK_NOT_ALONE, UNIT_LENGTH, XTS_KEY_LENGTH};
use std::iter::successors;
use std::ops::RangeInclusive;

/// 02, order 3: how many bytes a unit has.
pub const UNIT: RangeInclusive<usize> = 16..=65_536;

/// The unit overwritten with what XTS-AES makes of it under a key and a number,
/// deciphered if `back` is true. Returns 0, or the number of the first refusal
/// that applies (02, order 3: 15, 16), and then keeps the unit.
pub fn xts(key: &[u8], back: bool, number: u64, unit: &mut [u8]) -> u32 {
    if let Err(refusal) = taken(key, unit) {
        return refusal;
    }
    let xts = Xts::new(key, number, unit.len());
    let made = if back {
        xts.decipher(unit)
    } else {
        xts.encipher(unit)
    };
    unit.copy_from_slice(&made);
    0
}

/// Block `k` of a unit, counted from 0, deciphered by itself. Returns 0, or the
/// number of the first refusal that applies (02, order 3: 15, 16, 17), and then
/// keeps what stands in `into`.
pub fn xts_block(key: &[u8], number: u64, unit: &[u8], k: u64, into: &mut [u8; 16]) -> u32 {
    if let Err(refusal) = taken(key, unit) {
        return refusal;
    }
    let full = unit.len() / 16;
    let alone = if unit.len().is_multiple_of(16) {
        full
    } else {
        full - 1
    };
    if k >= alone as u64 {
        return BLOCK_NOT_ALONE;
    }
    let k = k as usize;
    let xts = Xts::new(key, number, unit.len());
    *into = xts.block_dec(&unit[16 * k..][..16], k);
    0
}

/// Numbers 15 and 16.
pub fn taken(key: &[u8], unit: &[u8]) -> Result<(), u32> {
    if key.len() != 32 && key.len() != 64 {
        return Err(XTS_KEY_LENGTH);
    }
    if !UNIT.contains(&unit.len()) {
        return Err(UNIT_LENGTH);
    }
    Ok(())
}

/// What all blocks of one unit share.
struct Xts {
    /// The schedule of Key1.
    key1: Vec<Word>,
    /// 5.3.1, step 1: T of each block j, AES-enc(Key2, i) times alpha^j.
    t: Vec<Block>,
}

impl Xts {
    /// 5.1: Key is Key1 | Key2, and i a block with its low byte first. A unit
    /// has blocks 0 to m.
    fn new(key: &[u8], number: u64, length: usize) -> Self {
        let (key1, key2) = key.split_at(key.len() / 2);
        let mut i = [0; 16];
        i[..8].copy_from_slice(&number.to_le_bytes());
        let first = cipher(&i, &key_expansion(key2));
        let all = successors(Some(first), |t| Some(double(*t)));
        Self {
            key1: key_expansion(key1),
            t: all.take(length / 16 + 1).collect(),
        }
    }

    /// 5.3.1: XTS-AES-blockEnc.
    fn block_enc(&self, p: &[u8], j: usize) -> Block {
        let t = self.t[j];
        let pp = xor(block(p), t);
        let cc = cipher(&pp, &self.key1);
        xor(cc, t)
    }

    /// 5.4.1: XTS-AES-blockDec.
    fn block_dec(&self, c: &[u8], j: usize) -> Block {
        let t = self.t[j];
        let cc = xor(block(c), t);
        let pp = inv_cipher(&cc, &self.key1);
        xor(pp, t)
    }

    /// 5.3.2: XTS-AES-Enc. A Pm of b bytes takes the place of the first b of
    /// what block m - 1 gives, and these are Cm.
    fn encipher(&self, p: &[u8]) -> Vec<u8> {
        let (m, b) = (p.len() / 16, p.len() % 16);
        let mut c = Vec::new();
        for q in 0..m - 1 {
            c.extend(self.block_enc(&p[16 * q..][..16], q));
        }
        let cc = self.block_enc(&p[16 * (m - 1)..][..16], m - 1);
        if b == 0 {
            c.extend(cc);
            return c;
        }
        let (c_m, cp) = cc.split_at(b);
        let pp = [&p[16 * m..], cp].concat();
        c.extend(self.block_enc(&pp, m));
        c.extend(c_m);
        c
    }

    /// 5.4.2: XTS-AES-Dec. Of the two blocks that share, the one that stands
    /// first is deciphered first, with the tweak of block m.
    fn decipher(&self, c: &[u8]) -> Vec<u8> {
        let (m, b) = (c.len() / 16, c.len() % 16);
        let mut p = Vec::new();
        for q in 0..m - 1 {
            p.extend(self.block_dec(&c[16 * q..][..16], q));
        }
        let last = &c[16 * (m - 1)..][..16];
        if b == 0 {
            p.extend(self.block_dec(last, m - 1));
            return p;
        }
        let pp = self.block_dec(last, m);
        let (p_m, cp) = pp.split_at(b);
        let cc = [&c[16 * m..], cp].concat();
        p.extend(self.block_dec(&cc, m - 1));
        p.extend(p_m);
        p
    }
}

#[cfg(test)]
mod tests;
