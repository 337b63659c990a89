//! Memory as a caller lends it: in the middle of other bytes, which no call
//! may change.

use std::hint::black_box;

/// Bytes before and after what is lent.
const GUARD: usize = 24;

/// What the bytes around hold.
const AROUND: u8 = 0xa5;

/// A copy of some bytes, lent to one call.
#[derive(Clone, Debug)]
pub struct Lent {
    whole: Vec<u8>,
    start: usize,
    end: usize,
}

impl Lent {
    /// A copy of the bytes, at an address moved on by `shift`, so that a call
    /// meets every alignment.
    #[must_use]
    pub fn new(bytes: &[u8], shift: usize) -> Self {
        let start = GUARD + shift;
        let end = start + bytes.len();
        let mut whole = vec![AROUND; end + GUARD];
        whole[start..end].copy_from_slice(bytes);
        Self { whole, start, end }
    }

    /// To read.
    #[must_use]
    pub fn bytes(&self) -> &[u8] {
        &self.whole[self.start..self.end]
    }

    /// To overwrite.
    pub fn bytes_mut(&mut self) -> &mut [u8] {
        &mut self.whole[self.start..self.end]
    }

    /// What the call has left.
    ///
    /// # Panics
    ///
    /// Where a byte around it has changed.
    #[must_use]
    pub fn after(self) -> Vec<u8> {
        // The compiler may take it that bytes lent to be read have stayed;
        // that is what is looked at here.
        let whole = black_box(self.whole);
        let around = whole[..self.start].iter().chain(&whole[self.end..]);
        assert!(
            around.copied().all(|b| b == AROUND),
            "bytes around the lent ones changed"
        );
        whole[self.start..self.end].to_vec()
    }
}

#[cfg(test)]
mod tests {
    use super::Lent;

    /// The copy is at the address asked for and is what comes back.
    #[test]
    fn lends() {
        for shift in 0..16 {
            let mut lent = Lent::new(&[1, 2, 3], shift);
            let moved = lent.bytes().as_ptr() as usize - lent.whole.as_ptr() as usize;
            assert_eq!(moved, 24 + shift);
            assert_eq!(lent.bytes(), [1, 2, 3]);
            lent.bytes_mut()[1] = 7;
            assert_eq!(lent.after(), [1, 7, 3]);
        }
        assert!(Lent::new(&[], 0).after().is_empty());
    }

    /// A byte written just outside is noticed, on either side.
    #[test]
    fn notices() {
        for outside in [|l: &Lent| l.start - 1, |l: &Lent| l.end] {
            let mut lent = Lent::new(&[1, 2, 3], 5);
            let place = outside(&lent);
            lent.whole[place] ^= 1;
            assert!(std::panic::catch_unwind(|| lent.after()).is_err());
        }
    }
}
