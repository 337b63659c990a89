//! Inputs for the tests: repeatable random bytes, memory to lend them from,
//! and the vectors that stand in `vectors/` at the root of the repository.

#![forbid(unsafe_code)]

pub mod eme2;
mod lent;
mod random;
mod vectors;

pub use lent::Lent;
pub use random::Random;
pub use vectors::{from_hex, lines, nist, Known};
