//! One call of EME2-AES, by the library and by the second implementation, for
//! all tests of it.

use inputs::Lent;
use lagunedo::{eme2_decipher, eme2_encipher, Refusal};

/// The answer's number, and the bytes that the library leaves in the message.
/// All that is lent stands in the middle of other bytes, at addresses that
/// `shift` moves, each differently; those bytes, the key and the associated
/// data must stay.
pub fn library(key: &[u8], back: bool, ad: &[u8], message: &[u8], shift: usize) -> (u32, Vec<u8>) {
    let lent_key = Lent::new(key, (shift / 16) % 16);
    let lent_ad = Lent::new(ad, (5 * shift) % 16);
    let mut lent = Lent::new(message, shift % 16);
    let call = if back { eme2_decipher } else { eme2_encipher };
    let answer = call(lent_key.bytes(), lent_ad.bytes(), lent.bytes_mut());
    assert!(lent_key.after() == key, "the key changed");
    assert!(lent_ad.after() == ad, "the associated data changed");
    (answer.map_or_else(Refusal::number, |()| 0), lent.after())
}

/// The same of the second implementation.
pub fn by_second(key: &[u8], back: bool, ad: &[u8], message: &[u8]) -> (u32, Vec<u8>) {
    let mut message = message.to_vec();
    (second::eme2(key, back, ad, &mut message), message)
}
