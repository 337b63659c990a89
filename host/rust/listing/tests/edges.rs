//! Both sides of each edge of 01's listing.

use listing::{listed, listed_from_file, Lead, Slot, RECORD};

/// 01: at most 31 slots.
const MOST: usize = 31 * RECORD;

/// The bytes that the repository keeps for the program's own run, and the two
/// lines that 01 prints of them.
#[test]
fn example_of_01() {
    let expected = "0 305 2 0 16\nused 1 free 1 clear 1 old 0 new 0\n";
    assert_eq!(listed_from_file("crates/listing/stdin"), expected);
    let mut store = vec![0; 2 * RECORD];
    store[..10].copy_from_slice(&[0x31, 1, 0, 0, 2, 0, 0, 0, 0x10, 0]);
    store[16..32].copy_from_slice(b"PRESS 4 HOLD 5AM");
    assert_eq!(listed(&store), expected);
}

#[test]
fn empty_input() {
    assert_eq!(listed(&[]), "used 0 free 0 clear 0 old 0 new 0\n");
}

/// Every slot used, every mark, and the ends of every field's range.
#[test]
fn every_mark_in_31_slots() {
    let slots: Vec<Lead> = (0..31).map(wide_slot).collect();
    let store: Vec<u8> = slots.iter().flat_map(|slot| slot.bytes()).collect();
    assert_eq!(store.len(), MOST);
    let lines = slots.iter().enumerate().map(|(k, slot)| slot.line(k));
    let expected = lines.collect::<String>() + "used 31 free 0 clear 11 old 10 new 10\n";
    assert_eq!(listed(&store), expected);
}

/// Slot k of a store whose numbers of every size are all different.
fn wide_slot(k: u8) -> Lead {
    Lead {
        sheet: u32::MAX >> k,
        revision: [1, u32::MAX, 10, 65_535, 9_999, 65_536][usize::from(k) % 6],
        mark: k % 3,
        length: [16, 2_096, 99, 1_000][usize::from(k) % 4],
    }
}

/// 02, order 1: the revision is printed whole, with all its digits, and so are
/// those around it.
#[test]
fn every_digit_of_a_revision() {
    let mut revisions = vec![1, 2, 255, 256, 65_534, 65_535, 65_536, 65_537];
    revisions.extend((1..10).flat_map(|n| [10_u32.pow(n) - 1, 10_u32.pow(n)]));
    revisions.extend([1 << 31, 1_234_567_890, 4_294_967_294, 4_294_967_295]);
    let slots: Vec<Lead> = revisions
        .into_iter()
        .zip(1..)
        .map(|(revision, sheet)| Lead {
            sheet,
            revision,
            mark: 2,
            length: 2_096,
        })
        .collect();
    assert_eq!(slots.len(), 30);
    let store: Vec<u8> = slots.iter().flat_map(|slot| slot.bytes()).collect();
    let lines = slots.iter().enumerate().map(|(k, slot)| slot.line(k));
    let expected = lines.collect::<String>() + "used 30 free 0 clear 0 old 0 new 30\n";
    assert_eq!(listed(&store), expected);
    assert!(expected.contains("29 30 4294967295 2 2096\n"));
}

/// The longest lines there are: the numbers of every field at their longest, in
/// every slot.
#[test]
fn longest_lines() {
    let slot = |k: u32| Lead {
        sheet: u32::MAX - k,
        revision: u32::MAX - k,
        mark: 0,
        length: 2_096,
    };
    let store: Vec<u8> = (0..31).flat_map(|k| slot(k).bytes()).collect();
    let lines: String = (0..31).map(|k| slot(k).line(k as usize)).collect();
    assert_eq!(
        listed(&store),
        lines + "used 31 free 0 clear 31 old 0 new 0\n"
    );
}

/// The store that is kept from before revisions had four bytes.
#[test]
fn earlier_store() {
    let folder = "vectors/store-before-order-1";
    let listing = format!("{}/../../../{folder}/listing", env!("CARGO_MANIFEST_DIR"));
    let expected = std::fs::read_to_string(listing).expect("the listing that is kept");
    assert_eq!(listed_from_file(&format!("{folder}/store")), expected);
}

/// Free slots have no line, and the others keep their numbers.
#[test]
fn free_slots_between() {
    let slot = Lead {
        sheet: 7,
        revision: 1,
        mark: 2,
        length: 16,
    };
    let free = || vec![0; RECORD];
    let last = Lead { sheet: 1, ..slot };
    let store = [free(), slot.bytes(), free(), free(), last.bytes(), free()].concat();
    let expected = slot.line(1) + &last.line(4) + "used 2 free 4 clear 0 old 0 new 2\n";
    assert_eq!(listed(&store), expected);
}

/// At most 31 slots: not whole is refused, and beyond it is too long, whole or
/// not, also where the program does not read to the end.
#[test]
fn sizes() {
    for length in [1, 16, 2_111, 2_113, 4_223, 4_225, 63_361, MOST - 1] {
        assert_eq!(listed(&vec![0; length]), "refused 4\n", "{length} bytes");
    }
    for slots in [1, 2, 30, 31] {
        let expected = format!("used 0 free {slots} clear 0 old 0 new 0\n");
        assert_eq!(listed(&vec![0; slots * RECORD]), expected);
    }
    for length in [MOST + 1, 65_535, 65_536, 65_537, 32 * RECORD, 200_000] {
        assert_eq!(listed(&vec![0; length]), "too long\n", "{length} bytes");
    }
}
