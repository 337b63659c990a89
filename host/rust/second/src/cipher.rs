//! FIPS 197, sections 5.1 and 5.3: one block, both ways. The state is written
//! as its four columns, so `s[c][r]` is the standard's s of row r, column c.

use crate::field::PRODUCTS;
use crate::schedule::Word;
use crate::substitution::{inv_sub, sub};
use std::array::from_fn;

type State = [[u8; 4]; 4];

/// CIPHER, section 5.1.
pub fn cipher(input: &[u8; 16], w: &[Word]) -> [u8; 16] {
    let nr = w.len() / 4 - 1;
    let mut state = add_round_key(load(input), w, 0);
    for round in 1..nr {
        state = sub_bytes(state);
        state = shift_rows(state);
        state = mix_columns(state);
        state = add_round_key(state, w, round);
    }
    state = sub_bytes(state);
    state = shift_rows(state);
    state = add_round_key(state, w, nr);
    store(state)
}

/// INVCIPHER, section 5.3.
pub fn inv_cipher(input: &[u8; 16], w: &[Word]) -> [u8; 16] {
    let nr = w.len() / 4 - 1;
    let mut state = add_round_key(load(input), w, nr);
    for round in (1..nr).rev() {
        state = inv_shift_rows(state);
        state = inv_sub_bytes(state);
        state = add_round_key(state, w, round);
        state = inv_mix_columns(state);
    }
    state = inv_shift_rows(state);
    state = inv_sub_bytes(state);
    state = add_round_key(state, w, 0);
    store(state)
}

/// Section 3.4: byte r + 4c of the block is row r, column c of the state.
fn load(block: &[u8; 16]) -> State {
    from_fn(|c| from_fn(|r| block[r + 4 * c]))
}

fn store(s: State) -> [u8; 16] {
    from_fn(|i| s[i / 4][i % 4])
}

/// Section 5.1.4; it undoes itself (5.3.4).
fn add_round_key(s: State, w: &[Word], round: usize) -> State {
    from_fn(|c| from_fn(|r| s[c][r] ^ w[4 * round + c][r]))
}

/// Section 5.1.1.
fn sub_bytes(s: State) -> State {
    s.map(|column| column.map(sub))
}

/// Section 5.3.2.
fn inv_sub_bytes(s: State) -> State {
    s.map(|column| column.map(inv_sub))
}

/// Section 5.1.2: row r moves r columns to the left.
fn shift_rows(s: State) -> State {
    from_fn(|c| from_fn(|r| s[(c + r) % 4][r]))
}

/// Section 5.3.1: row r moves r columns to the right.
fn inv_shift_rows(s: State) -> State {
    from_fn(|c| from_fn(|r| s[(c + 4 - r) % 4][r]))
}

/// Section 5.1.3.
fn mix_columns(s: State) -> State {
    s.map(|column| product([2, 3, 1, 1], column))
}

/// Section 5.3.3.
fn inv_mix_columns(s: State) -> State {
    s.map(|column| product([14, 11, 13, 9], column))
}

/// The matrix whose first row is given and whose every next row is the one
/// above turned right by one, times a column.
fn product(row: [u8; 4], column: [u8; 4]) -> [u8; 4] {
    let times = |a: u8, b: u8| PRODUCTS[usize::from(b)][usize::from(a)];
    from_fn(|r| (0..4).fold(0, |sum, k| sum ^ times(column[k], row[(k + 4 - r) % 4])))
}
