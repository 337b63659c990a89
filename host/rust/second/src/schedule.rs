//! FIPS 197, section 5.2: the round keys. A word is four bytes.

use crate::field::xtimes;
use crate::substitution::sub;

pub type Word = [u8; 4];

/// SUBWORD
fn sub_word(w: Word) -> Word {
    w.map(sub)
}

/// ROTWORD
fn rot_word([a, b, c, d]: Word) -> Word {
    [b, c, d, a]
}

fn add(a: Word, b: Word) -> Word {
    std::array::from_fn(|i| a[i] ^ b[i])
}

/// KEYEXPANSION, for a key of Nk words: 4 · (Nr + 1) words, where Nr = Nk + 6.
/// The standard's three sizes are all here, so that its appendices can be
/// compared whole; which keys are taken is decided by the caller.
pub fn key_expansion(key: &[u8]) -> Vec<Word> {
    let nk = key.len() / 4;
    let nr = nk + 6;
    let mut rcon = [1, 0, 0, 0];
    let mut w: Vec<Word> = key
        .chunks_exact(4)
        .map(|c| [c[0], c[1], c[2], c[3]])
        .collect();
    for i in nk..4 * (nr + 1) {
        let mut temp = w[i - 1];
        if i % nk == 0 {
            temp = add(sub_word(rot_word(temp)), rcon);
            rcon[0] = xtimes(rcon[0]);
        } else if nk > 6 && i % nk == 4 {
            temp = sub_word(temp);
        }
        w.push(add(w[i - nk], temp));
    }
    w
}
