//! EME2-AES, from source document 000: Table 1 enciphers, Table 2 deciphers.
//! The numbers in the comments are the tables' lines.
//!
//! Table 2 is Table 1 with Dec for Enc in lines 12 to 45, with the names
//! beginning in P and C exchanged. So both are `wide`, which has Table 1's
//! names; only the number of blocks, there m beside a mask M, is `count`.

use crate::block::{block, double, xor, Block};
use crate::cipher::{cipher, inv_cipher};
use crate::schedule::key_expansion;
use crate::slip::Slip;
use crate::{DATA_LENGTH, KEY_LENGTH, MESSAGE_LENGTH};
use std::ops::RangeInclusive;

/// 01: how many bytes a message has.
pub const MESSAGE: RangeInclusive<usize> = 16..=65_536;

/// The message overwritten with what EME2-AES makes of it under a key and
/// associated data, deciphered if `back` is true. Returns 0, or the number
/// of the first refusal that applies (01, transform: 1, 2, 3), and then keeps
/// the message.
pub fn eme2(key: &[u8], back: bool, ad: &[u8], message: &mut [u8]) -> u32 {
    eme2_with(None, key, back, ad, message)
}

/// `eme2` with an error made on purpose, if one is given.
pub fn eme2_with(slip: Option<Slip>, key: &[u8], back: bool, ad: &[u8], message: &mut [u8]) -> u32 {
    if key.len() != 48 && key.len() != 64 {
        return KEY_LENGTH;
    }
    if !MESSAGE.contains(&message.len()) {
        return MESSAGE_LENGTH;
    }
    if ad.len() > 1_024 {
        return DATA_LENGTH;
    }
    let [key1, key2, key3] = parts(key);
    let w = key_expansion(key1);
    let enc: &dyn Fn(Block) -> Block = &|x| cipher(&x, &w);
    let dec: &dyn Fn(Block) -> Block = &|x| inv_cipher(&x, &w);
    let permute = if back { dec } else { enc };
    let on_data = Slip::AssociatedData.choose(slip, enc, permute);
    let t_star = associated(on_data, block(key3), ad);
    wide_with(slip, permute, block(key2), t_star, message);
    0
}

/// 000: Key3 is the last 16 bytes, Key2 the 16 before them, Key1 the rest.
fn parts(key: &[u8]) -> [&[u8]; 3] {
    let (rest, key3) = key.split_at(key.len() - 16);
    let (key1, key2) = rest.split_at(rest.len() - 16);
    [key1, key2, key3]
}

/// Lines 1 to 11: T_star from the associated data T.
fn associated(enc: &dyn Fn(Block) -> Block, key3: Block, t: &[u8]) -> Block {
    let blocks = split(t);
    let Some((t_r, before)) = blocks.split_last() else {
        return enc(key3); // 1
    };
    let mut key3 = double(key3); // 3
    let mut tt = Vec::new();
    for t_i in before {
        tt.push(xor(enc(xor(key3, block(t_i))), key3)); // 5
        key3 = double(key3); // 6
    }
    let t_r = if t_r.len() < 16 {
        key3 = double(key3); // 9
        pad(t_r) // 8
    } else {
        block(t_r)
    };
    tt.push(xor(enc(xor(key3, t_r)), key3)); // 10
    sum([0; 16], &tt) // 11
}

/// Lines 12 to 45 over any block permutation: the message overwritten with
/// what they make of it. Given the inverse permutation and the same `l` and
/// `t_star` it undoes itself.
///
/// EME-32-AES is this function too: 512 bytes, `l` twice the encipherment of
/// the zero block (both ways), and `t_star` the tweak of 16 bytes.
///
/// # Panics
///
/// If the message is below 16 bytes: the tables begin with a full block.
pub fn wide(
    permute: &dyn Fn([u8; 16]) -> [u8; 16],
    l: [u8; 16],
    t_star: [u8; 16],
    message: &mut [u8],
) {
    wide_with(None, permute, l, t_star, message);
}

/// `wide` with an error made on purpose, if one is given.
fn wide_with(
    slip: Option<Slip>,
    permute: &dyn Fn(Block) -> Block,
    l: Block,
    t_star: Block,
    message: &mut [u8],
) {
    assert!(message.len() >= 16, "no full block");
    let p = split(message);
    let p_m = p[p.len() - 1];
    let ppp = first_pass(permute, l, &p);
    let ccc = mix(slip, permute, t_star, &ppp, p_m);
    let c = second_pass(permute, l, &ccc, p_m.len());
    message.copy_from_slice(&c);
}

/// Lines 12 to 17: PPP1 .. PPPm.
fn first_pass(permute: &dyn Fn(Block) -> Block, key2: Block, p: &[&[u8]]) -> Vec<Block> {
    let count = p.len();
    let mut ppp = Vec::new();
    let mut l = key2; // 12
    for p_i in &p[..count - 1] {
        ppp.push(permute(xor(l, block(p_i)))); // 14
        l = double(l); // 15
    }
    let p_m = p[count - 1];
    if p_m.len() < 16 {
        ppp.push(pad(p_m)); // 16
    } else {
        ppp.push(permute(xor(l, block(p_m)))); // 17
    }
    ppp
}

/// Lines 18 to 40: CCC1 .. CCCm. Block i of the table is at place i - 1.
fn mix(
    slip: Option<Slip>,
    permute: &dyn Fn(Block) -> Block,
    t_star: Block,
    ppp: &[Block],
    p_m: &[u8],
) -> Vec<Block> {
    let count = ppp.len();
    let mp = sum(t_star, ppp); // 18
    let (mm, mc1) = middle(permute, mp, p_m.len() < 16);
    let m1 = xor(mp, mc1); // 23
    let mut m = m1;
    let mut ccc = vec![[0; 16]; count];
    for i in 2..count {
        if begins_mask(i) {
            let from = Slip::NewMask.choose(slip, m1, m);
            let mp = xor(ppp[i - 1], from); // 29
            let mc = permute(mp); // 30
            m = xor(mp, mc); // 31
            ccc[i - 1] = xor(mc, from); // 32
        } else {
            m = double(m); // 26
            ccc[i - 1] = xor(ppp[i - 1], m); // 27
        }
    }
    if let Some(mm) = mm {
        let beside = Slip::ShortBlock.choose(slip, mm, mc1);
        ccc[count - 1] = last_short(beside, p_m); // 33 to 35
    } else if count > 1 {
        let from = Slip::NewMask.choose(slip, m1, m);
        ccc[count - 1] = last_full(permute, [m, from], count, ppp[count - 1]); // 36 to 39
    }
    ccc[0] = sum(xor(mc1, t_star), &ccc[1..]); // 40
    ccc
}

/// Lines 19 to 22: MM, which is there for a short Pm alone, and MC1.
fn middle(permute: &dyn Fn(Block) -> Block, mp: Block, short: bool) -> (Option<Block>, Block) {
    if short {
        let mm = permute(mp); // 20
        (Some(mm), permute(mm)) // 21
    } else {
        (None, permute(mp)) // 22
    }
}

/// Lines 34 and 35: CCCm for a short Pm.
fn last_short(mm: Block, p_m: &[u8]) -> Block {
    let c_m: Vec<u8> = p_m.iter().zip(mm).map(|(p, k)| p ^ k).collect(); // 34
    pad(&c_m) // 35
}

/// Lines 36 to 39: CCCm for a full Pm. 01: with one block they are left out,
/// since line 40 overwrites what line 39 gives.
fn last_full(
    permute: &dyn Fn(Block) -> Block,
    [m, m1]: [Block; 2],
    count: usize,
    ppp_m: Block,
) -> Block {
    if begins_mask(count) {
        xor(permute(xor(m1, ppp_m)), m1) // 39
    } else {
        xor(ppp_m, double(m)) // 37, 38
    }
}

/// Lines 41 to 45: C1 .. Cm, joined. A short Cm is the front of CCCm (35).
fn second_pass(
    permute: &dyn Fn(Block) -> Block,
    key2: Block,
    ccc: &[Block],
    last_length: usize,
) -> Vec<u8> {
    let count = ccc.len();
    let mut c = Vec::new();
    let mut l = key2; // 41
    for ccc_i in &ccc[..count - 1] {
        c.extend(xor(permute(*ccc_i), l)); // 43
        l = double(l); // 44
    }
    let ccc_m = ccc[count - 1];
    if last_length == 16 {
        c.extend(xor(permute(ccc_m), l)); // 45
    } else {
        c.extend(&ccc_m[..last_length]);
    }
    c
}

/// Lines 25 and 36, the other way about: whether the full block i, from 2,
/// begins a new mask.
fn begins_mask(i: usize) -> bool {
    (i - 1).is_multiple_of(128)
}

/// The blocks of a message of some length, counted from 1, that begin a new
/// mask after the first.
#[must_use]
pub fn new_masks(length: usize) -> Vec<usize> {
    (2..=length / 16).filter(|i| begins_mask(*i)).collect()
}

/// 01, padding: one byte 80 hex, then zeros, up to 16.
fn pad(short: &[u8]) -> Block {
    let mut padded = [0; 16];
    padded[..short.len()].copy_from_slice(short);
    padded[short.len()] = 0x80;
    padded
}

/// Blocks of 16 bytes, the last of 1 to 16; none if there are no bytes.
fn split(bytes: &[u8]) -> Vec<&[u8]> {
    bytes.chunks(16).collect()
}

/// The xor of one block and of all that follow.
fn sum(first: Block, rest: &[Block]) -> Block {
    rest.iter().fold(first, |sum, next| xor(sum, *next))
}

#[cfg(test)]
mod tests;
