//! The listing against 01's example and its words.

use super::listing;
use crate::record::RECORD;
use crate::store::tests::example;

#[test]
fn example_of_01() {
    let expected = "0 305 2 0 16\nused 1 free 1 clear 1 old 0 new 0\n";
    assert_eq!(listing(&example()), expected);
}

/// 02, order 1: the revision is printed whole.
#[test]
fn long_revisions() {
    for (halves, digits) in [
        ([255, 255, 0, 0], "65535"),
        ([0, 0, 1, 0], "65536"),
        ([1, 2, 3, 4], "67305985"),
        ([255, 255, 255, 255], "4294967295"),
    ] {
        let mut store = example();
        store[4..6].copy_from_slice(&halves[..2]);
        store[10..12].copy_from_slice(&halves[2..]);
        let expected = format!("0 305 {digits} 0 16\nused 1 free 1 clear 1 old 0 new 0\n");
        assert_eq!(listing(&store), expected);
    }
}

#[test]
fn sizes() {
    let empty = "used 0 free 0 clear 0 old 0 new 0\n";
    assert_eq!(listing(&[]), empty);
    assert_eq!(listing(&[0]), "refused 4\n");
    assert_eq!(listing(&[0; 31 * RECORD - 1]), "refused 4\n");
    let most = "used 0 free 31 clear 0 old 0 new 0\n";
    assert_eq!(listing(&[0; 31 * RECORD]), most);
    assert_eq!(listing(&[0; 31 * RECORD + 1]), "too long\n");
    assert_eq!(listing(&[0; 32 * RECORD]), "too long\n");
}

/// A repeated number is a fault, and then nothing else is printed.
#[test]
fn fault() {
    let twice = example().repeat(2);
    assert_eq!(listing(&twice), "fault at 2\n");
}
