//! The errors that learners make in the transform (01), and what each spoils.

use crate::blocks::{differing, named};
use crate::trouble::Trouble;
use second::{eme2_with, Slip};

/// Each by its name on the command line, with 01's words for it.
const ERRORS: [(&str, Slip, &str); 3] = [
    (
        "short-block",
        Slip::ShortBlock,
        "the short block xored with MC1 where MM belongs",
    ),
    (
        "new-mask",
        Slip::NewMask,
        "the mask at block 129 taken from the running M and not M1",
    ),
    (
        "associated-data",
        Slip::AssociatedData,
        "Dec used on associated data",
    ),
];

/// An error by its name, and 01's words for it.
pub fn error_named(name: &str) -> Option<(Slip, &'static str)> {
    let known = ERRORS.iter().find(|known| known.0 == name)?;
    Some((known.1, known.2))
}

/// An error, and what it is made with.
pub struct Lesson {
    pub slip: Slip,
    pub key: Vec<u8>,
    pub ad: Vec<u8>,
}

impl Lesson {
    /// A transform of the message, with the error or as 000 has it.
    fn transform(&self, wrong: bool, back: bool, message: &[u8]) -> Result<Vec<u8>, Trouble> {
        let slip = wrong.then_some(self.slip);
        let mut message = message.to_vec();
        match eme2_with(slip, &self.key, back, &self.ad, &mut message) {
            0 => Ok(message),
            number => Err(Trouble::Refused(number)),
        }
    }

    /// The blocks that are wrong of the result; of the text that comes back
    /// where both directions have the error; and of the text where only
    /// deciphering has it.
    fn spoiled(&self, text: &[u8]) -> Result<[Vec<usize>; 3], Trouble> {
        let right = self.transform(false, false, text)?;
        let wrong = self.transform(true, false, text)?;
        let both = self.transform(true, true, &wrong)?;
        let back = self.transform(true, true, &right)?;
        Ok([(&right[..], &wrong), (text, &both), (text, &back)].map(|(a, b)| differing(a, b)))
    }

    /// The same in words.
    pub fn report(&self, text: &[u8]) -> Result<String, Trouble> {
        let [there, both, back] = self.spoiled(text)?.map(|blocks| match &blocks[..] {
            [] => "right".to_owned(),
            wrong => format!("wrong in {}", named(wrong)),
        });
        Ok(format!(
            "enciphered so: {there}\n\
             enciphered and deciphered so: {both}\n\
             enciphered rightly, deciphered so: {back}\n"
        ))
    }
}

#[cfg(test)]
mod tests;
