//! A call by the second implementation.

use crate::{Call, Lent, What, FAULT};
use second::{
    add, add_xts, aes, check, eme2, read, remove, revise, step, xts, xts_block, Checked, Keys,
};

/// What the second implementation returns.
#[must_use]
pub fn by_second(call: &Call, lent: Lent) -> u32 {
    let key = lent.old_key;
    match call.what {
        What::AesEncipher => aes(key, false, lent.text),
        What::AesDecipher => aes(key, true, lent.text),
        What::Eme2Encipher => eme2(key, false, lent.data, lent.text),
        What::Eme2Decipher => eme2(key, true, lent.data, lent.text),
        What::XtsEncipher => xts(lent.xts_key, false, call.number, lent.text),
        What::XtsDecipher => xts(lent.xts_key, true, call.number, lent.text),
        What::XtsBlock => xts_block(lent.xts_key, call.number, lent.text, call.k, lent.block),
        _ => on_store(call, lent).map_or_else(|number| number, |()| 0),
    }
}

fn on_store(call: &Call, lent: Lent) -> Result<(), u32> {
    let (old, new) = (lent.old_key, lent.new_key);
    let keys = Keys { old, new };
    let (store, text, sheet) = (lent.store, lent.text, call.sheet);
    let [w0, w1, w2, w3, w4, w5] = lent.words;
    match call.what {
        What::Check => match check(store)? {
            Checked::Sound(c) => {
                [*w1, *w2, *w3, *w4, *w5] = [c.used, c.free, c.clear, c.old, c.new];
            }
            Checked::Faulty(slot) => {
                *w0 = slot;
                return Err(FAULT);
            }
        },
        What::Read => {
            let found = read(keys, store, sheet, text)?;
            [*w0, *w1] = [found.length, found.revision];
        }
        What::Add => *w0 = add(keys, store, sheet, text)?,
        What::Revise => *w0 = revise(keys, store, sheet, call.seen, text)?,
        What::Remove => remove(store, sheet)?,
        What::AddXts => *w0 = add_xts(lent.xts_key, call.number, text, keys, store, sheet)?,
        _ => *w0 = step(keys, store, lent.place)? as u32,
    }
    Ok(())
}
