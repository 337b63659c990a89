//! A call as C makes it.

use crate::{Call, Lent, What};
use lagunedo::raw::{
    lagunedo_add, lagunedo_add_xts, lagunedo_aes_decipher, lagunedo_aes_encipher, lagunedo_check,
    lagunedo_eme2_decipher, lagunedo_eme2_encipher, lagunedo_job_step, lagunedo_read,
    lagunedo_remove, lagunedo_revise, lagunedo_step, lagunedo_xts_block, lagunedo_xts_decipher,
    lagunedo_xts_encipher,
};
use lagunedo::Job;
use std::ptr::from_mut;

/// What the library returns.
#[must_use]
pub fn by_library(call: &Call, lent: Lent) -> u32 {
    let Call {
        what,
        sheet,
        seen,
        number,
        k,
    } = *call;
    let (old, old_len) = (lent.old_key.as_ptr(), lent.old_key.len());
    let (new, new_len) = (lent.new_key.as_ptr(), lent.new_key.len());
    let (xts, xts_len) = (lent.xts_key.as_ptr(), lent.xts_key.len());
    let (data, data_len) = (lent.data.as_ptr(), lent.data.len());
    let (text, text_len) = (lent.text.as_mut_ptr(), lent.text.len());
    let (store, store_len) = (lent.store.as_mut_ptr(), lent.store.len());
    let [w0, w1, w2, w3, w4, w5] = lent.words.map(from_mut);
    let (place, block) = (from_mut(lent.place), from_mut(lent.block));
    // SAFETY: each pointer is that of a slice, with its length, or of a word,
    // a place or a block. What may be written is borrowed mutably, and so overlaps
    // nothing. A job is nothing but its place.
    unsafe {
        match what {
            What::AesEncipher => lagunedo_aes_encipher(old, old_len, text, text_len),
            What::AesDecipher => lagunedo_aes_decipher(old, old_len, text, text_len),
            What::Eme2Encipher => {
                lagunedo_eme2_encipher(old, old_len, data, data_len, text, text_len)
            }
            What::Eme2Decipher => {
                lagunedo_eme2_decipher(old, old_len, data, data_len, text, text_len)
            }
            What::Check => lagunedo_check(store, store_len, w0, w1, w2, w3, w4, w5),
            What::Read => lagunedo_read(
                old, old_len, new, new_len, store, store_len, sheet, text, text_len, w0, w1,
            ),
            What::Add => lagunedo_add(
                old, old_len, new, new_len, store, store_len, sheet, text, text_len, w0,
            ),
            What::Revise => lagunedo_revise(
                old, old_len, new, new_len, store, store_len, sheet, seen, text, text_len, w0,
            ),
            What::Remove => lagunedo_remove(store, store_len, sheet),
            What::Step => lagunedo_step(old, old_len, new, new_len, store, store_len, place, w0),
            What::JobStep => {
                let job = place.cast::<Job>();
                lagunedo_job_step(job, old, old_len, new, new_len, store, store_len, w0)
            }
            What::XtsEncipher => lagunedo_xts_encipher(xts, xts_len, number, text, text_len),
            What::XtsDecipher => lagunedo_xts_decipher(xts, xts_len, number, text, text_len),
            What::XtsBlock => lagunedo_xts_block(xts, xts_len, number, text, text_len, k, block),
            What::AddXts => lagunedo_add_xts(
                xts, xts_len, number, text, text_len, old, old_len, new, new_len, store, store_len,
                sheet, w0,
            ),
        }
    }
}
