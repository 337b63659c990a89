//! An input that comes slowly and in pieces is listed as it is at once.

use listing::{listed, listed_in_pieces, Lead, Slot, RECORD};
use std::time::Duration;

/// Long enough that the program mostly reads each piece by itself. What it
/// prints must not depend on that.
const PAUSE: Duration = Duration::from_millis(5);

/// Beside a slot's length and beside the program's own chunks of 4,096 bytes.
const PIECES: [usize; 9] = [1, 1, 1_000, 2_111, 2_112, 4_095, 4_096, 4_097, 1];

/// A store of 31 slots, every third one free.
fn store() -> Vec<u8> {
    let slot = |k| Lead {
        sheet: 1_000 + k,
        revision: 7,
        mark: (k % 2) as u8 + 1,
        length: 16 + 60 * k as u16,
    };
    let bytes = |k: u32| {
        if k.is_multiple_of(3) {
            vec![0; RECORD]
        } else {
            slot(k).bytes()
        }
    };
    (0..31).flat_map(bytes).collect()
}

/// The input cut after each of these lengths, over and over.
fn cut<'a>(mut input: &'a [u8], lengths: &[usize]) -> Vec<&'a [u8]> {
    let mut pieces = vec![];
    for length in lengths.iter().cycle() {
        if input.is_empty() {
            break;
        }
        let (piece, rest) = input.split_at(input.len().min(*length));
        pieces.push(piece);
        input = rest;
    }
    pieces
}

#[test]
fn same_listing() {
    let store = store();
    let whole = listed(&store);
    assert!(
        whole.ends_with("used 20 free 11 clear 0 old 10 new 10\n"),
        "{whole}"
    );
    assert_eq!(listed_in_pieces(&cut(&store, &PIECES), PAUSE), whole);
    assert_eq!(listed_in_pieces(&cut(&store, &[60_000]), PAUSE), whole);
}

/// One byte by itself at the end decides.
#[test]
fn last_byte() {
    let mut store = store();
    let last = store.len() - 1;
    let pieces = |store: &[u8]| listed_in_pieces(&[&store[..last], &store[last..]], PAUSE);
    assert!(pieces(&store).starts_with("1 1001 7 2 76\n"));
    store[last] = 1;
    assert_eq!(pieces(&store), "fault at 30\n");
    store.push(0);
    assert_eq!(pieces(&store), "too long\n");
    assert_eq!(
        listed_in_pieces(&[&[0; 2_111], &[0], &[0]], PAUSE),
        "refused 4\n"
    );
}
