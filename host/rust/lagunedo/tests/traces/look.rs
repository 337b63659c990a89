//! What is looked at between the events of a trace, and at its end.

use crate::last_slot::mark;
use crate::list::{Sheet, LONGEST};
use crate::trace::Trace;
use lagunedo::{check, Checked, Counts};
use second::record::{self, RECORD};

impl Trace {
    /// What the store's texts decipher to is the list, and the store passes
    /// the check, with the counts that its bytes have.
    pub fn look(&self) {
        let slots = self.store.chunks(RECORD);
        let mut marks = [0; 3];
        for ((k, record), sheet) in slots.enumerate().zip(&self.list.places) {
            assert_eq!(deciphered(record, self.keys.lent()), *sheet, "slot {k}");
            if let Some(mark) = mark(record) {
                marks[usize::from(mark)] += 1;
            }
        }
        let used = self.list.places.iter().flatten().count();
        let [clear, old_key, new_key] = marks;
        let counts = Counts {
            used: used as u32,
            free: (self.list.places.len() - used) as u32,
            clear,
            old_key,
            new_key,
        };
        assert_eq!(check(&self.store), Ok(Checked::Sound(counts)));
    }

    /// Reads every sheet of the list.
    pub fn read_all(&self, old_key: &[u8]) {
        for sheet in self.list.places.iter().flatten() {
            let found = self.read(old_key, sheet.number, &[0; LONGEST]);
            assert!(found.is_ok(), "sheet {}", sheet.number);
        }
    }

    /// At the end: where a copy of the job is done, the old key is needed no
    /// more, and any other will do.
    pub fn end(&self) {
        self.look();
        if self.last_slot.due() {
            let other: Vec<u8> = self.keys.old.iter().map(|byte| !byte).collect();
            self.read_all(&other);
        }
    }
}

/// The sheet of a sound record, its text in clear.
fn deciphered(record: &[u8], keys: second::Keys) -> Option<Sheet> {
    mark(record).map(|_| Sheet {
        number: record::sheet(record),
        revision: record::revision(record),
        text: record::text(record, keys),
    })
}
