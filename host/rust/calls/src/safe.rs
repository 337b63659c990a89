//! A call by the safe functions.

use crate::{Call, Lent, What, FAULT};
use lagunedo::{
    add, add_xts, aes_decipher, aes_encipher, check, eme2_decipher, eme2_encipher, job_step, read,
    remove, revise, step, xts_block, xts_decipher, xts_encipher, Checked, Job, Refusal,
};

/// What the safe function returns, as a number.
#[must_use]
pub fn by_safe(call: &Call, lent: Lent) -> u32 {
    made(call, lent).unwrap_or_else(Refusal::number)
}

fn made(call: &Call, lent: Lent) -> Result<u32, Refusal> {
    let (old, new, data) = (lent.old_key, lent.new_key, lent.data);
    let (store, text, sheet) = (lent.store, lent.text, call.sheet);
    let (xts, number) = (lent.xts_key, call.number);
    let [w0, w1, w2, w3, w4, w5] = lent.words;
    match call.what {
        What::AesEncipher => aes_encipher(old, text)?,
        What::AesDecipher => aes_decipher(old, text)?,
        What::Eme2Encipher => eme2_encipher(old, data, text)?,
        What::Eme2Decipher => eme2_decipher(old, data, text)?,
        What::Check => match check(store)? {
            Checked::Sound(c) => {
                [*w1, *w2, *w3, *w4, *w5] = [c.used, c.free, c.clear, c.old_key, c.new_key];
            }
            Checked::Faulty(slot) => {
                *w0 = slot;
                return Ok(FAULT);
            }
        },
        What::Read => {
            let found = read(old, new, store, sheet, text)?;
            [*w0, *w1] = [found.length, found.revision];
        }
        What::Add => *w0 = add(old, new, store, sheet, text)?,
        What::Revise => *w0 = revise(old, new, store, sheet, call.seen, text)?,
        What::Remove => remove(store, sheet)?,
        What::Step => *w0 = step(old, new, store, lent.place)? as u32,
        What::JobStep => {
            let mut job = Job { place: *lent.place };
            let outcome = job_step(&mut job, old, new, store);
            *lent.place = job.place;
            *w0 = outcome? as u32;
        }
        What::XtsEncipher => xts_encipher(xts, number, text)?,
        What::XtsDecipher => xts_decipher(xts, number, text)?,
        What::XtsBlock => *lent.block = xts_block(xts, number, text, call.k)?,
        What::AddXts => *w0 = add_xts(xts, number, text, old, new, store, sheet)?,
    }
    Ok(0)
}
