//! Runs the proved listing program, and makes stores for it.
//!
//! - `program`: what it prints of an input
//! - `slot`: a slot from its fields, and its line

#![forbid(unsafe_code)]

mod program;
mod slot;

pub use program::{listed, listed_from_file, listed_in_pieces};
pub use second::record::{Lead, RECORD};
pub use slot::Slot;
