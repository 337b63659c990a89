//! A message's blocks, counted from 1 as 000 counts them.

use crate::trouble::Trouble;
use second::{new_masks, MESSAGE, MESSAGE_LENGTH};

/// How a message of so many bytes is cut, and which blocks begin a new mask.
pub fn cut(length: usize) -> Result<String, Trouble> {
    if !MESSAGE.contains(&length) {
        return Err(Trouble::Refused(MESSAGE_LENGTH));
    }
    let (full, odd) = (length / 16, length % 16);
    let masks = match new_masks(length) {
        masks if masks.is_empty() => "none".to_owned(),
        masks => format!("at {}", named(&masks)),
    };
    Ok(format!(
        "full blocks {full}, odd bytes {odd}, new masks: {masks}\n"
    ))
}

/// Those blocks of two messages of one length that differ.
pub fn differing(a: &[u8], b: &[u8]) -> Vec<usize> {
    let pairs = a.chunks(16).zip(b.chunks(16));
    (1..)
        .zip(pairs)
        .filter_map(|(i, (a, b))| (a != b).then_some(i))
        .collect()
}

/// Blocks by their rising numbers, those that follow each other together.
pub fn named(blocks: &[usize]) -> String {
    let runs: Vec<String> = blocks
        .chunk_by(|a, b| a + 1 == *b)
        .map(|run| match run {
            [first, _, .., last] => format!("{first} to {last}"),
            [first, last] => format!("{first}, {last}"),
            _ => run[0].to_string(),
        })
        .collect();
    let noun = if blocks.len() == 1 { "block" } else { "blocks" };
    format!("{noun} {}", runs.join(", "))
}

#[cfg(test)]
mod tests {
    use super::{cut, named};
    use crate::trouble::Trouble;

    /// 01, D8 to D11.
    #[test]
    fn edges() {
        for (length, wanted) in [
            (2_048, "full blocks 128, odd bytes 0, new masks: none\n"),
            (2_049, "full blocks 128, odd bytes 1, new masks: none\n"),
            (
                2_064,
                "full blocks 129, odd bytes 0, new masks: at block 129\n",
            ),
            (
                2_065,
                "full blocks 129, odd bytes 1, new masks: at block 129\n",
            ),
        ] {
            assert!(cut(length).is_ok_and(|text| text == wanted), "{length}");
        }
    }

    #[test]
    fn lengths() {
        for length in [0, 15, 65_537] {
            assert!(matches!(cut(length), Err(Trouble::Refused(2))), "{length}");
        }
        assert!([16, 65_536].into_iter().all(|length| cut(length).is_ok()));
    }

    #[test]
    fn runs() {
        assert_eq!(named(&[7]), "block 7");
        assert_eq!(named(&[1, 3]), "blocks 1, 3");
        assert_eq!(named(&[1, 128, 129, 130]), "blocks 1, 128 to 130");
    }
}
