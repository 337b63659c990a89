//! Each error spoils what the lessons say, at every length beside an edge.

use super::Lesson;
use inputs::Random;
use second::Slip;

/// From one block to beyond the new mask, whole blocks and beside them.
const LENGTHS: [usize; 12] = [
    16, 18, 31, 32, 34, 2_047, 2_048, 2_050, 2_063, 2_064, 2_066, 2_096,
];

/// The wrong blocks of the three, for a text of some length.
fn spoiled(slip: Slip, ad: usize, length: usize) -> [Vec<usize>; 3] {
    let mut random = Random::new(7);
    let [key, ad, text] = [48, ad, length].map(|n| random.bytes(n));
    let lesson = Lesson { slip, key, ad };
    let Ok(spoiled) = lesson.spoiled(&text) else {
        panic!("refused: {length}");
    };
    spoiled
}

/// The first block and the short one, where there is one; and it is noticed
/// at once, since the text does not come back.
#[test]
fn short_block() {
    for length in LENGTHS {
        let wanted = if length % 16 == 0 {
            vec![]
        } else {
            vec![1, length / 16 + 1]
        };
        let found = spoiled(Slip::ShortBlock, 16, length);
        assert_eq!(found, [&wanted; 3].map(Clone::clone), "{length}");
    }
}

/// The first block and the full ones from 129, where there are any; a program
/// that has the error in both directions does not notice.
#[test]
fn new_mask() {
    for length in LENGTHS {
        let full = length / 16;
        let wanted = if full < 129 {
            vec![]
        } else {
            [1].into_iter().chain(129..=full).collect()
        };
        let found = spoiled(Slip::NewMask, 16, length);
        assert_eq!(found, [wanted.clone(), vec![], wanted], "{length}");
    }
}

/// Every block, in deciphering alone, and without any data as well.
#[test]
fn associated_data() {
    for length in LENGTHS {
        for ad in [0, 1, 16, 17] {
            let all: Vec<usize> = (1..=length.div_ceil(16)).collect();
            let found = spoiled(Slip::AssociatedData, ad, length);
            assert_eq!(found, [vec![], all.clone(), all], "{length} {ad}");
        }
    }
}
