//! 01, "The store": one record of 2,112 bytes, its fields and its text; with
//! 02, order 1, for the revision. It is the one place in Rust that knows at
//! which byte a field stands; the tests and the fuzz body go by it too.

use crate::eme2;

/// Bytes of a record, and so of a slot.
pub const RECORD: usize = 2_112;
/// Bytes of the lead, the front of a record.
pub const LEAD: usize = 16;
/// The shortest text.
pub const SHORTEST: usize = 16;
/// The longest text: what a record has behind its lead.
pub const LONGEST: usize = RECORD - LEAD;
/// 02, order 1: the last revision; the first is 1.
pub const GREATEST_REVISION: u32 = 4_294_967_295;

/// The mark of a text in clear.
pub const CLEAR: u8 = 0;
/// The mark of a text under the old key.
pub const OLD: u8 = 1;
/// The mark of a text under the new key.
pub const NEW: u8 = 2;

/// The fields of a lead. Bytes 7 and 12 to 15 are 0 if it is sound.
#[derive(Clone, Copy, Debug, Eq, PartialEq)]
pub struct Lead {
    /// Bytes 0 to 3: the sheet number, 0 if the slot is free.
    pub sheet: u32,
    /// Bytes 4 and 5, the low half, and 10 and 11, the high half: the revision.
    pub revision: u32,
    /// Byte 6: the mark.
    pub mark: u8,
    /// Bytes 8 and 9: the length of the text.
    pub length: u16,
}

impl Lead {
    /// All bytes of a record with this lead and zeros behind it.
    #[must_use]
    pub fn record(self) -> Vec<u8> {
        let mut record = vec![0; RECORD];
        self.put(&mut record);
        record
    }

    /// Overwrites the fields of a record's lead, and keeps the bytes between
    /// and behind them.
    pub fn put(self, record: &mut [u8]) {
        record[..4].copy_from_slice(&self.sheet.to_le_bytes());
        let (low, high) = (self.revision % 65_536, self.revision / 65_536);
        record[4..6].copy_from_slice(&low.to_le_bytes()[..2]);
        record[6] = self.mark;
        record[8..10].copy_from_slice(&self.length.to_le_bytes());
        record[10..12].copy_from_slice(&high.to_le_bytes()[..2]);
    }

    /// What stands in a record, sound or not.
    #[must_use]
    pub fn of(record: &[u8]) -> Self {
        Self {
            sheet: sheet(record),
            revision: revision(record),
            mark: mark(record),
            length: u16::from_le_bytes([record[8], record[9]]),
        }
    }

    /// Where the text ends, in a record that it may leave no room for.
    #[must_use]
    pub fn text_end(self) -> usize {
        RECORD.min(LEAD + usize::from(self.length))
    }
}

/// The two keys that a call on texts is given.
#[derive(Clone, Copy, Debug)]
pub struct Keys<'a> {
    /// The key of mark 1.
    pub old: &'a [u8],
    /// The key of mark 2.
    pub new: &'a [u8],
}

/// Bytes 0 to 3: the sheet number, 0 if the slot is free.
#[must_use]
pub fn sheet(record: &[u8]) -> u32 {
    u32::from_le_bytes([record[0], record[1], record[2], record[3]])
}

/// Bytes 4 and 5, and 65,536 times bytes 10 and 11: the revision.
#[must_use]
pub fn revision(record: &[u8]) -> u32 {
    let [low, high] = [4, 10].map(|at| u16::from_le_bytes([record[at], record[at + 1]]));
    u32::from(low) + 65_536 * u32::from(high)
}

/// Byte 6: the mark.
#[must_use]
pub fn mark(record: &[u8]) -> u8 {
    record[6]
}

/// Bytes 8 and 9: the length of the text.
#[must_use]
pub fn length(record: &[u8]) -> usize {
    usize::from(u16::from_le_bytes([record[8], record[9]]))
}

/// Whether a slot is as the table has it: all 0 if it is free, or else
/// with every field in its range and zeros in between and behind.
#[must_use]
pub fn sound(record: &[u8]) -> bool {
    if sheet(record) == 0 {
        return zeros(record);
    }
    revision(record) >= 1
        && mark(record) <= NEW
        && record[7] == 0
        && (SHORTEST..=LONGEST).contains(&length(record))
        && zeros(&record[12..LEAD])
        && zeros(&record[LEAD + length(record)..])
}

fn zeros(bytes: &[u8]) -> bool {
    bytes.iter().all(|b| *b == 0)
}

/// The text of a sound and used slot, deciphered under the key of its mark
/// with the whole lead for associated data.
///
/// EME2 keeps the length of what it deciphers, so number 14 of 01's table is
/// never answered.
#[must_use]
pub fn text(record: &[u8], keys: Keys) -> Vec<u8> {
    let (lead, rest) = record.split_at(LEAD);
    let mut text = rest[..length(record)].to_vec();
    match mark(record) {
        OLD => assert_eq!(eme2(keys.old, true, lead, &mut text), 0),
        NEW => assert_eq!(eme2(keys.new, true, lead, &mut text), 0),
        _ => (),
    }
    text
}

/// All bytes of a slot that holds a text of an allowed length as its mark
/// says: the lead as it will be stored is the associated data.
#[must_use]
pub fn written(sheet: u32, revision: u32, mark: u8, text: &[u8], keys: Keys) -> Vec<u8> {
    let length = u16::try_from(text.len()).expect("at most 2,096 bytes");
    let lead = Lead {
        sheet,
        revision,
        mark,
        length,
    };
    let mut record = lead.record();
    let (lead, rest) = record.split_at_mut(LEAD);
    let stored = &mut rest[..text.len()];
    stored.copy_from_slice(text);
    match mark {
        OLD => assert_eq!(eme2(keys.old, false, lead, stored), 0),
        NEW => assert_eq!(eme2(keys.new, false, lead, stored), 0),
        _ => (),
    }
    record
}
