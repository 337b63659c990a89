//! Each kind of fault that 01 knows gives one line, and nothing of the slots
//! before it.

use listing::{listed, Lead, Slot, RECORD};

const SOUND: Lead = Lead {
    sheet: 305,
    revision: 2,
    mark: 0,
    length: 40,
};

/// The slot after two used ones and a free one, and before another.
fn among(slot: &[u8]) -> Vec<u8> {
    let [first, second, last] = [1, 2, 3].map(|sheet| Lead { sheet, ..SOUND }.bytes());
    [&first, &vec![0; RECORD], &second, slot, &last].concat()
}

/// The slot is at fault by itself, and also after good slots.
fn at_fault(slot: &[u8], name: &str) {
    assert_eq!(listed(slot), "fault at 0\n", "{name}");
    assert_eq!(listed(&among(slot)), "fault at 3\n", "{name}");
}

fn fields_at_fault(slot: Lead) {
    at_fault(&slot.bytes(), &format!("{slot:?}"));
}

/// What the faults are made of is sound.
#[test]
fn sound_before() {
    let expected = SOUND.line(0) + "used 1 free 0 clear 1 old 0 new 0\n";
    assert_eq!(listed(&SOUND.bytes()), expected);
    assert!(listed(&among(&SOUND.bytes())).ends_with("used 4 free 1 clear 4 old 0 new 0\n"));
}

#[test]
fn revision() {
    let revision = 0;
    fields_at_fault(Lead { revision, ..SOUND });
}

#[test]
fn mark() {
    for mark in [3, 4, 128, 255] {
        fields_at_fault(Lead { mark, ..SOUND });
    }
}

#[test]
fn length() {
    for length in [0, 15, 2_097, 2_112, 65_535] {
        fields_at_fault(Lead { length, ..SOUND });
    }
}

/// Bytes 7 and 12 to 15 are 0, and so is the text after its length.
#[test]
fn zeros_of_a_used_slot() {
    let behind = 16 + usize::from(SOUND.length);
    for at in [7, 12, 13, 14, 15, behind, behind + 1, RECORD - 1] {
        let mut slot = SOUND.bytes();
        assert_eq!(slot[at], 0);
        slot[at] = 1;
        at_fault(&slot, &format!("byte {at} of a used slot"));
    }
}

/// A slot with number 0 has no other byte.
#[test]
fn zeros_of_a_free_slot() {
    for at in [4, 5, 6, 7, 8, 9, 10, 11, 12, 15, 16, 1_000, RECORD - 1] {
        let mut slot = vec![0; RECORD];
        slot[at] = 128;
        at_fault(&slot, &format!("byte {at} of a free slot"));
    }
}

/// The later of two slots with one number is at fault, and free slots repeat
/// nothing.
#[test]
fn repeated_number() {
    let repeated = Lead { sheet: 2, ..SOUND };
    assert_eq!(listed(&among(&repeated.bytes())), "fault at 3\n");
    let later = Lead { sheet: 3, ..SOUND };
    assert_eq!(listed(&among(&later.bytes())), "fault at 4\n");
    let again = SOUND.bytes().repeat(31);
    assert_eq!(listed(&again), "fault at 1\n");
}

/// Of several faults the lowest, also where it is in the last slot of all.
#[test]
fn lowest_of_several() {
    let bad = Lead { mark: 3, ..SOUND };
    assert_eq!(listed(&bad.bytes().repeat(4)), "fault at 0\n");
    let mut store = vec![0; 31 * RECORD];
    store[31 * RECORD - 1] = 1;
    assert_eq!(listed(&store), "fault at 30\n");
    store[17 * RECORD - 1] = 1;
    assert_eq!(listed(&store), "fault at 16\n");
}
