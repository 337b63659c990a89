//! A call as C makes it. All that is lent stands in the middle of other
//! memory, which has to stay.

use calls::{by_library, Call, Memory};
use inputs::Lent;
use std::hint::black_box;

/// What the memory around the place and the words holds.
const PLACE_GUARD: u64 = 0xa5a5_a5a5_a5a5_a5a5;
const WORD_GUARD: u32 = 0xa5a5_a5a5;

pub fn call(call: &Call, before: &Memory, shift: usize) -> (u32, Memory) {
    let old_key = Lent::new(&before.old_key, shift % 16);
    let new_key = Lent::new(&before.new_key, (3 * shift) % 16);
    let xts_key = Lent::new(&before.xts_key, (7 * shift) % 16);
    let mut store = Lent::new(&before.store, (shift / 16) % 16);
    let mut text = Lent::new(&before.text, (5 * shift) % 16);
    let mut block = Lent::new(&before.block, (11 * shift) % 16);
    let mut place = [PLACE_GUARD, before.place, PLACE_GUARD];
    let mut words = [WORD_GUARD; 8];
    words[1..7].copy_from_slice(&before.words);
    let [_, lent @ .., _] = words.each_mut();
    let number = by_library(
        call,
        calls::Lent {
            old_key: old_key.bytes(),
            new_key: new_key.bytes(),
            xts_key: xts_key.bytes(),
            data: &[],
            store: store.bytes_mut(),
            text: text.bytes_mut(),
            block: block.bytes_mut().try_into().expect("16 bytes"),
            place: &mut place[1],
            words: lent,
        },
    );
    let [low, place, high] = black_box(place);
    assert_eq!([low, high], [PLACE_GUARD; 2], "around the place");
    let [low, words @ .., high] = black_box(words);
    assert_eq!([low, high], [WORD_GUARD; 2], "around the words");
    let after = Memory {
        old_key: old_key.after(),
        new_key: new_key.after(),
        xts_key: xts_key.after(),
        data: vec![],
        store: store.after(),
        text: text.after(),
        block: block.after().try_into().expect("16 bytes"),
        place,
        words,
    };
    (number, after)
}
