//! The sheet store in lent bytes: check, read, add, revise, remove.

use crate::raw::{lagunedo_add, lagunedo_check, lagunedo_read, lagunedo_remove, lagunedo_revise};
use crate::refusal::answer;
use crate::Refusal;

/// What the library's check returns if a slot is faulty: an answer, not a
/// refusal, so it is above 01's numbers.
pub const FAULT: u32 = 256;

/// How many slots of a sound store are of each kind.
#[derive(Clone, Copy, Debug, Default, Eq, PartialEq)]
pub struct Counts {
    /// Slots with a sheet.
    pub used: u32,
    /// Slots without one.
    pub free: u32,
    /// Sheets in clear.
    pub clear: u32,
    /// Sheets under the old key.
    pub old_key: u32,
    /// Sheets under the new key.
    pub new_key: u32,
}

/// What [`check`] finds.
#[derive(Clone, Copy, Debug, Eq, PartialEq)]
pub enum Checked {
    /// The store is sound.
    Sound(Counts),
    /// The lowest slot that is unsound, or that repeats the sheet number of a
    /// lower slot.
    Faulty(u32),
}

/// What [`read`] gives beside the text.
#[derive(Clone, Copy, Debug, Eq, PartialEq)]
pub struct Found {
    /// How many bytes at the front of the buffer are the text.
    pub length: u32,
    /// The revision of the sheet, which a revision of it has to name.
    pub revision: u32,
}

/// Looks at every slot of a store, and gives the lowest that is faulty or
/// else the counts.
///
/// ```
/// use lagunedo::{check, Checked, Counts};
///
/// let mut store = vec![0; 3 * lagunedo::RECORD_SIZE];
/// let free = Counts { free: 3, ..Counts::default() };
/// assert_eq!(check(&store), Ok(Checked::Sound(free)));
///
/// // A byte set in a slot whose sheet number is 0.
/// store[lagunedo::RECORD_SIZE + 100] = 1;
/// assert_eq!(check(&store), Ok(Checked::Faulty(1)));
/// ```
///
/// # Errors
///
/// [`Refusal::StoreLength`].
pub fn check(store: &[u8]) -> Result<Checked, Refusal> {
    let mut fault = 0;
    let mut counts = Counts::default();
    // SAFETY: the store is only read, and every length of it is taken. The
    // six numbers are this function's own and are six different places.
    let number = unsafe {
        lagunedo_check(
            store.as_ptr(),
            store.len(),
            &mut fault,
            &mut counts.used,
            &mut counts.free,
            &mut counts.clear,
            &mut counts.old_key,
            &mut counts.new_key,
        )
    };
    if number == FAULT {
        return Ok(Checked::Faulty(fault));
    }
    answer(number).map(|()| Checked::Sound(counts))
}

/// Writes the text of a sheet, in clear, to the front of the buffer `text`,
/// whose other bytes are kept. 2,096 bytes are enough for every text.
///
/// ```
/// use lagunedo::{add, read, Refusal};
///
/// let (old, new) = ([1; 48], [2; 48]);
/// let mut store = vec![0; lagunedo::RECORD_SIZE];
/// add(&old, &new, &mut store, 305, b"PRESS 4 HOLD 5AM")?;
///
/// let mut text = [0xff; 20];
/// let found = read(&old, &new, &store, 305, &mut text)?;
/// assert_eq!((found.length, found.revision), (16, 1));
/// assert_eq!(&text, b"PRESS 4 HOLD 5AM\xff\xff\xff\xff");
///
/// let short = read(&old, &new, &store, 305, &mut text[..15]);
/// assert_eq!(short, Err(Refusal::BufferLength));
/// # Ok::<(), Refusal>(())
/// ```
///
/// # Errors
///
/// In this order: [`Refusal::KeyLength`] if one of the two keys, which
/// may differ in length, is neither 48 nor 64 bytes,
/// [`Refusal::StoreLength`], [`Refusal::SheetZero`],
/// [`Refusal::NoSheet`], [`Refusal::SlotUnsound`], [`Refusal::BufferLength`],
/// and last [`Refusal::LengthChanged`], which never comes about; the buffer
/// is then as it was. A wrong key of an allowed length is no error.
pub fn read(
    old_key: &[u8],
    new_key: &[u8],
    store: &[u8],
    sheet: u32,
    text: &mut [u8],
) -> Result<Found, Refusal> {
    let mut found = Found {
        length: 0,
        revision: 0,
    };
    // SAFETY: slices of any length are taken. Those that are only read may
    // overlap in Rust; the buffer, borrowed mutably, overlaps none of them.
    // The two numbers are this function's own. Nothing is kept.
    let number = unsafe {
        lagunedo_read(
            old_key.as_ptr(),
            old_key.len(),
            new_key.as_ptr(),
            new_key.len(),
            store.as_ptr(),
            store.len(),
            sheet,
            text.as_mut_ptr(),
            text.len(),
            &mut found.length,
            &mut found.revision,
        )
    };
    answer(number).map(|()| found)
}

/// Writes a new sheet with a text of 16 to 2,096 bytes, under the new key,
/// into the lowest free slot, and gives its revision, 1.
///
/// ```
/// use lagunedo::{add, Refusal};
///
/// let (old, new) = ([1; 48], [2; 48]);
/// let mut store = vec![0; lagunedo::RECORD_SIZE];
/// assert_eq!(add(&old, &new, &mut store, 305, b"PRESS 4 HOLD 5AM"), Ok(1));
///
/// // Made again it is refused, and so is another if no slot is free.
/// let again = add(&old, &new, &mut store, 305, b"PRESS 4 HOLD 5AM");
/// assert_eq!(again, Err(Refusal::SheetPresent));
/// let another = add(&old, &new, &mut store, 306, b"PRESS 1 AT SEVEN");
/// assert_eq!(another, Err(Refusal::NoFreeSlot));
/// ```
///
/// # Errors
///
/// In this order: [`Refusal::KeyLength`], [`Refusal::StoreLength`],
/// [`Refusal::SheetZero`], [`Refusal::TextLength`], [`Refusal::SheetPresent`],
/// [`Refusal::NoFreeSlot`]; the store is then as it was.
pub fn add(
    old_key: &[u8],
    new_key: &[u8],
    store: &mut [u8],
    sheet: u32,
    text: &[u8],
) -> Result<u32, Refusal> {
    let mut revision = 0;
    // SAFETY: as for reading, with the store borrowed mutably and the text
    // only read.
    let number = unsafe {
        lagunedo_add(
            old_key.as_ptr(),
            old_key.len(),
            new_key.as_ptr(),
            new_key.len(),
            store.as_mut_ptr(),
            store.len(),
            sheet,
            text.as_ptr(),
            text.len(),
            &mut revision,
        )
    };
    answer(number).map(|()| revision)
}

/// Replaces the whole text of a sheet of which the operator saw the revision
/// `seen`; the new one, of 16 to 2,096 bytes, is under the new key. Gives the
/// revision now stored, one higher.
///
/// ```
/// use lagunedo::{add, revise, Refusal};
///
/// let (old, new) = ([1; 48], [2; 48]);
/// let mut store = vec![0; lagunedo::RECORD_SIZE];
/// add(&old, &new, &mut store, 305, b"PRESS 4 HOLD 5AM")?;
///
/// // Two operators saw revision 1. The first is accepted, the second not.
/// let first = revise(&old, &new, &mut store, 305, 1, b"PRESS 2 HOLD 6AM");
/// let second = revise(&old, &new, &mut store, 305, 1, b"PRESS 3 HOLD 4AM");
/// assert_eq!((first, second), (Ok(2), Err(Refusal::OtherRevision)));
/// # Ok::<(), Refusal>(())
/// ```
///
/// # Errors
///
/// In this order: [`Refusal::KeyLength`], [`Refusal::StoreLength`],
/// [`Refusal::SheetZero`], [`Refusal::TextLength`],
/// [`Refusal::NoSheet`], [`Refusal::SlotUnsound`],
/// [`Refusal::OtherRevision`], [`Refusal::LastRevision`]; the store is then
/// as it was.
pub fn revise(
    old_key: &[u8],
    new_key: &[u8],
    store: &mut [u8],
    sheet: u32,
    seen: u32,
    text: &[u8],
) -> Result<u32, Refusal> {
    let mut revision = 0;
    // SAFETY: as for adding.
    let number = unsafe {
        lagunedo_revise(
            old_key.as_ptr(),
            old_key.len(),
            new_key.as_ptr(),
            new_key.len(),
            store.as_mut_ptr(),
            store.len(),
            sheet,
            seen,
            text.as_ptr(),
            text.len(),
            &mut revision,
        )
    };
    answer(number).map(|()| revision)
}

/// Zeros the slot of a sheet, sound or not. The slot is then free.
///
/// ```
/// use lagunedo::{add, remove, Refusal};
///
/// let (old, new) = ([1; 48], [2; 48]);
/// let mut store = vec![0; lagunedo::RECORD_SIZE];
/// add(&old, &new, &mut store, 305, b"PRESS 4 HOLD 5AM")?;
/// assert_eq!(remove(&mut store, 305), Ok(()));
/// assert!(store.iter().all(|byte| *byte == 0));
/// assert_eq!(remove(&mut store, 305), Err(Refusal::NoSheet));
/// # Ok::<(), Refusal>(())
/// ```
///
/// # Errors
///
/// In this order: [`Refusal::StoreLength`], [`Refusal::SheetZero`],
/// [`Refusal::NoSheet`]; the store is then as it was.
pub fn remove(store: &mut [u8], sheet: u32) -> Result<(), Refusal> {
    // SAFETY: the store may be written and is of any length.
    let number = unsafe { lagunedo_remove(store.as_mut_ptr(), store.len(), sheet) };
    answer(number)
}
