//! 01, "Errors that learners make": those in the transform, each to be made on
//! purpose, so that a lesson can show what it spoils and what it leaves.

/// An error in EME2-AES. The lines are those of 000's tables.
#[derive(Clone, Copy, Debug, PartialEq, Eq)]
pub enum Slip {
    /// Line 34: the short block xored with MC1 where MM belongs.
    ShortBlock,
    /// Lines 29, 32 and 39: the mask at block 129 taken from the running M and
    /// not M1.
    NewMask,
    /// Lines 1 to 11 of Table 2: Dec used on associated data.
    AssociatedData,
}

impl Slip {
    /// What 000 has at the place of this error, or what a learner puts there
    /// if this is the error made.
    pub(crate) fn choose<T>(self, made: Option<Self>, right: T, wrong: T) -> T {
        if made == Some(self) {
            wrong
        } else {
            right
        }
    }
}
