//! The vector files. A line is words between spaces; a line that begins with
//! `#` says where the vectors come from.

use std::fs;
use std::path::Path;

/// A known answer of NIST for one block.
#[derive(Clone, Debug)]
pub struct Known {
    /// What NIST calls it.
    pub name: String,
    /// Whether it is of deciphering.
    pub back: bool,
    /// 16, 24 or 32 bytes.
    pub key: Vec<u8>,
    /// The block before.
    pub input: Vec<u8>,
    /// The block after.
    pub output: Vec<u8>,
}

/// The lines of a vector file, each as its words.
///
/// # Panics
///
/// Where the file cannot be read: a test without its vectors has failed.
#[must_use]
pub fn lines(file: &str) -> Vec<Vec<String>> {
    let path = Path::new(env!("CARGO_MANIFEST_DIR"))
        .join("../../../vectors")
        .join(file);
    let text = fs::read_to_string(&path).unwrap_or_else(|e| panic!("vectors/{file}: {e}"));
    text.lines()
        .filter(|line| !line.starts_with('#') && !line.trim().is_empty())
        .map(|line| line.split_whitespace().map(str::to_owned).collect())
        .collect()
}

/// The known answers of `aes_nist_kat.txt`: name, `enc` or `dec`, key, block
/// before, block after.
///
/// # Panics
///
/// Where a line has another form.
#[must_use]
pub fn nist() -> Vec<Known> {
    lines("aes_nist_kat.txt").iter().map(|l| known(l)).collect()
}

fn known(line: &[String]) -> Known {
    let [name, direction, key, input, output] = line else {
        panic!("not five words: {line:?}");
    };
    assert!(
        direction == "enc" || direction == "dec",
        "no direction: {line:?}"
    );
    Known {
        name: name.clone(),
        back: direction == "dec",
        key: from_hex(key),
        input: from_hex(input),
        output: from_hex(output),
    }
}

/// The bytes that hexadecimal digits write.
///
/// # Panics
///
/// Where they are not pairs of hexadecimal digits.
#[must_use]
pub fn from_hex(digits: &str) -> Vec<u8> {
    hex(digits).unwrap_or_else(|why| panic!("{why}"))
}

/// The same, or what is wrong with the digits.
pub fn hex(digits: &str) -> Result<Vec<u8>, String> {
    let digit = |d: char| {
        d.to_digit(16)
            .ok_or_else(|| format!("no hexadecimal digit: {d}"))
    };
    let values: Vec<u32> = digits.chars().map(digit).collect::<Result<_, _>>()?;
    if !values.len().is_multiple_of(2) {
        return Err(format!("half a byte: {digits}"));
    }
    let pairs = values.chunks(2);
    Ok(pairs.map(|pair| (pair[0] * 16 + pair[1]) as u8).collect())
}
