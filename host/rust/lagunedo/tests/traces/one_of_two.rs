//! The one-of-two claim of demand 3: of two revisions that name one sheet at
//! one revision at most one is accepted, if the sheet isn't removed between
//! them. It is looked at in the library's answers alone.

use lagunedo::Refusal;
use std::collections::{BTreeMap, BTreeSet};

/// A sheet and the revision named.
type Named = (u32, u32);

/// Remembers every accepted revision.
#[derive(Default)]
pub struct OneOfTwo {
    /// Accepted, and the sheet not removed since.
    standing: BTreeSet<Named>,
    /// Accepted, and the sheet removed since.
    ended: BTreeSet<Named>,
    /// How many second revisions were refused with each number.
    pub refused: BTreeMap<u32, usize>,
    /// How many were accepted after a removal between the two.
    pub anew: usize,
}

impl OneOfTwo {
    /// A revision was answered so.
    pub fn revised(&mut self, sheet: u32, seen: u32, answer: Result<u32, Refusal>) {
        let named = (sheet, seen);
        match answer {
            Ok(_) => {
                let first = self.standing.insert(named);
                assert!(first, "sheet {sheet} revised twice at revision {seen}");
                self.anew += usize::from(self.ended.contains(&named));
            }
            Err(refusal) if self.standing.contains(&named) => {
                *self.refused.entry(refusal.number()).or_default() += 1;
            }
            Err(_) => (),
        }
    }

    /// A removal was answered so.
    pub fn removed(&mut self, sheet: u32, answer: Result<u32, Refusal>) {
        if answer.is_ok() {
            let of_sheet = (sheet, 0)..=(sheet, u32::MAX);
            let ended: Vec<Named> = self.standing.range(of_sheet).copied().collect();
            for named in ended {
                self.standing.remove(&named);
                self.ended.insert(named);
            }
        }
    }
}

#[cfg(test)]
mod tests {
    use super::*;

    /// A revision made again, with another sheet removed between.
    #[test]
    #[should_panic(expected = "sheet 7 revised twice at revision 1")]
    fn accepted_twice() {
        let mut claim = OneOfTwo::default();
        claim.revised(7, 1, Ok(2));
        claim.removed(8, Ok(0));
        claim.removed(7, Err(Refusal::NoSheet));
        claim.revised(7, 1, Ok(2));
    }

    /// Refused, or at another revision, or of another sheet, or the sheet
    /// removed between.
    #[test]
    fn accepted_once() {
        let mut claim = OneOfTwo::default();
        claim.revised(7, 1, Ok(2));
        claim.revised(7, 1, Err(Refusal::OtherRevision));
        claim.revised(7, 2, Ok(3));
        claim.revised(8, 1, Ok(2));
        claim.removed(7, Ok(0));
        claim.revised(7, 1, Ok(2));
        assert_eq!(claim.refused, BTreeMap::from([(8, 1)]));
        assert_eq!(claim.anew, 1);
    }
}
