//! Writes the files of `vectors/eme2` that are our own, by the second
//! implementation. They show that the runner of such files works; they are no
//! published vectors. A test holds the files to what is written here.

use inputs::{eme2, Random};
use second::eme2 as transform;
use std::fmt::Write;
use std::io;

/// Bytes in one line of digits.
const WIDTH: usize = 32;

const STRAIGHT: &str = "\
# Our own vectors of EME2-AES, made by the second implementation of this
# repository (host/rust/second/examples/vectors.rs). They are no published
# vectors: they tie the library to that implementation and to nothing else.
# The order of the key's fields is source document 000's.
";

const REVERSED: &str = "\
# Our own vectors of EME2-AES, made by the second implementation of this
# repository (host/rust/second/examples/vectors.rs). They are no published
# vectors. The key's fields stand in reverse order here, to show that a file
# may have its own.
fields Key3 Key2 Key1
";

/// Lengths of key, associated data and message: every small kind of last
/// block and of data, and both sides of the first new mask (01, D8 to D11).
const STRAIGHT_LENGTHS: [[usize; 3]; 26] = [
    [48, 0, 16],
    [64, 0, 16],
    [48, 16, 16],
    [64, 1, 17],
    [48, 15, 17],
    [64, 16, 31],
    [48, 17, 31],
    [48, 0, 32],
    [64, 16, 32],
    [64, 37, 32],
    [48, 1, 33],
    [64, 15, 33],
    [48, 32, 47],
    [64, 0, 47],
    [48, 37, 48],
    [64, 17, 48],
    [48, 16, 512],
    [64, 1_024, 512],
    [48, 15, 2_048],
    [64, 0, 2_048],
    [64, 37, 2_049],
    [48, 1, 2_064],
    [64, 17, 2_064],
    [48, 16, 2_065],
    [48, 16, 2_096],
    [64, 16, 2_096],
];

const REVERSED_LENGTHS: [[usize; 3]; 3] = [[48, 0, 16], [64, 17, 33], [64, 16, 100]];

/// The names of the files and what they hold.
fn files() -> [(&'static str, String); 2] {
    [
        (
            "own-second-implementation.txt",
            text(STRAIGHT, &STRAIGHT_LENGTHS, &|key| key.to_vec()),
        ),
        (
            "own-fields-reversed.txt",
            text(REVERSED, &REVERSED_LENGTHS, &reversed),
        ),
    ]
}

/// Key3, Key2, Key1 of a key that holds Key1, Key2, Key3.
fn reversed(key: &[u8]) -> Vec<u8> {
    let (rest, key3) = key.split_at(key.len() - 16);
    let (key1, key2) = rest.split_at(rest.len() - 16);
    [key3, key2, key1].concat()
}

/// A file: its first lines, then a record of random bytes for each triple.
fn text(first: &str, lengths: &[[usize; 3]], written: &dyn Fn(&[u8]) -> Vec<u8>) -> String {
    let mut text = first.to_owned();
    for (n, lengths) in (1..).zip(lengths) {
        let mut random = Random::new(n);
        let [key, ad, plain] = lengths.map(|length| random.bytes(length));
        let mut cipher = plain.clone();
        assert_eq!(transform(&key, false, &ad, &mut cipher), 0);
        let [k, a, m] = lengths;
        text += &format!("\nname = {n}: key of {k}, data of {a}, message of {m} bytes\n");
        for (word, bytes) in [
            ("key", &written(&key)),
            ("ad", &ad),
            ("plain", &plain),
            ("cipher", &cipher),
        ] {
            text += &format!("{word} ={}\n", digits(bytes));
        }
    }
    text
}

/// Bytes in hexadecimal: in the line if they fit, or else below it.
fn digits(bytes: &[u8]) -> String {
    let between = if bytes.len() <= WIDTH { " " } else { "\n  " };
    let mut text = String::new();
    for line in bytes.chunks(WIDTH) {
        text += between;
        for byte in line {
            write!(text, "{byte:02x}").expect("a string takes all");
        }
    }
    text
}

fn main() -> io::Result<()> {
    for (name, text) in files() {
        std::fs::write(eme2::folder().join(name), text)?;
    }
    Ok(())
}

#[cfg(test)]
mod tests {
    use super::files;
    use inputs::eme2;

    /// The files are what this program writes, byte for byte.
    #[test]
    fn files_as_written() {
        for (name, text) in files() {
            let kept = std::fs::read_to_string(eme2::folder().join(name));
            assert!(kept.is_ok_and(|kept| kept == text), "{name}");
        }
    }
}
