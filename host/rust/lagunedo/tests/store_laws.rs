//! What the store promises of a single sheet, without the second
//! implementation's calls.

use inputs::Random;
use lagunedo::{add, read, revise, step, Outcome};
use second::record::{LEAD, RECORD};

const SEED: u64 = 0x0057_041a_3500;

/// What is written is read again, for every small length and the longest.
#[test]
fn every_length() {
    let mut random = Random::new(SEED);
    let keys = [random.bytes(64), random.bytes(48)];
    let mut store = vec![0; RECORD];
    assert_eq!(add(&keys[0], &keys[1], &mut store, 7, &[0; 16]), Ok(1));
    for (seen, length) in (1..).zip((16..=300).chain(2_030..=2_096)) {
        let text = random.bytes(length);
        let revision = revise(&keys[0], &keys[1], &mut store, 7, seen, &text);
        assert_eq!(revision, Ok(seen + 1), "{length} bytes");
        let mut buffer = vec![0; length];
        let found = read(&keys[0], &keys[1], &store, 7, &mut buffer).expect("a sheet");
        assert_eq!((found.length as usize, found.revision), (length, seen + 1));
        assert_eq!(buffer, text, "{length} bytes");
        assert_ne!(store[LEAD..][..length], text, "{length} bytes in clear");
    }
}

/// Rust allows it that what is only read is lent twice: here as both keys and
/// as the text.
#[test]
fn key_as_text() {
    for length in [48, 64] {
        let key = Random::new(SEED).bytes(length);
        let mut store = vec![0; RECORD];
        assert_eq!(add(&key, &key, &mut store, 7, &key), Ok(1));
        assert_eq!(revise(&key, &key, &mut store, 7, 1, &key), Ok(2));
        let mut place = 0;
        let outcome = step(&key, &key, &mut store, &mut place);
        assert_eq!(outcome, Ok(Outcome::Already));
        let mut text = vec![0; length];
        assert!(read(&key, &key, &store, 7, &mut text).is_ok());
        assert_eq!(text, key);
    }
}
