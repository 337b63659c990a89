//! A slot from its fields, sound or not, and the line that is printed of it.

use second::record::{Lead, LEAD};

/// What the tests make of the fields of a slot.
pub trait Slot {
    /// All bytes: no byte of the text is 0, and every byte after it is.
    fn bytes(self) -> Vec<u8>;

    /// The line that 01 prints of it, as slot k.
    fn line(self, k: usize) -> String;
}

impl Slot for Lead {
    fn bytes(self) -> Vec<u8> {
        let mut bytes = self.record();
        bytes[LEAD..self.text_end()].fill(b'5');
        bytes
    }

    fn line(self, k: usize) -> String {
        let Lead {
            sheet,
            revision,
            mark,
            length,
        } = self;
        format!("{k} {sheet} {revision} {mark} {length}\n")
    }
}
