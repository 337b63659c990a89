//! The rekeying job, one step at a time.

use crate::raw::{lagunedo_job_step, lagunedo_step};
use crate::refusal::answer;
use crate::Refusal;

/// What a step did.
#[derive(Clone, Copy, Debug, Eq, Hash, PartialEq)]
pub enum Outcome {
    /// Nothing: the place is at or past the number of slots, and stays.
    Done = 0,
    /// The slot has no sheet.
    Free = 1,
    /// The slot has a sheet and is unsound; it is kept.
    Damaged = 2,
    /// The sheet was under the new key already.
    Already = 3,
    /// The sheet was in clear or under the old key, and is now under the new.
    Converted = 4,
}

/// A rekeying job, as C has it: nothing but its place. A new one starts at
/// place 0.
#[repr(C)]
#[derive(Clone, Copy, Debug, Default, Eq, PartialEq)]
pub struct Job {
    /// The slot of the next step.
    pub place: u64,
}

/// Works on the slot at the place, keeps every byte of the others, and moves
/// the place on by one, unless the job is done.
///
/// ```
/// use lagunedo::{step, Outcome};
///
/// let (old, new) = ([1; 48], [2; 48]);
/// let mut store = vec![0; lagunedo::RECORD_SIZE];
/// let mut place = 0;
/// assert_eq!(step(&old, &new, &mut store, &mut place), Ok(Outcome::Free));
/// assert_eq!(step(&old, &new, &mut store, &mut place), Ok(Outcome::Done));
/// assert_eq!(place, 1);
/// ```
///
/// # Errors
///
/// [`Refusal::KeyLength`] if one of the two keys, which may differ in
/// length, is neither 48 nor 64 bytes, then [`Refusal::StoreLength`]; the
/// store and the place are then as they were.
pub fn step(
    old_key: &[u8],
    new_key: &[u8],
    store: &mut [u8],
    place: &mut u64,
) -> Result<Outcome, Refusal> {
    let mut number = 0;
    // SAFETY: slices of any length are taken. The keys are only read, and may
    // be the same bytes in Rust; the store and the place are borrowed mutably
    // and so overlap nothing. The number is this function's own. Nothing is
    // kept.
    let returned = unsafe {
        lagunedo_step(
            old_key.as_ptr(),
            old_key.len(),
            new_key.as_ptr(),
            new_key.len(),
            store.as_mut_ptr(),
            store.len(),
            place,
            &mut number,
        )
    };
    answer(returned).map(|()| outcome(number))
}

/// The same with the place in a [`Job`].
///
/// ```
/// use lagunedo::{job_step, read, Job, Outcome};
///
/// // Sheet 305 at revision 2, in clear: the lead, then the text.
/// let (old, new) = ([1; 48], [2; 64]);
/// let mut store = vec![0; lagunedo::RECORD_SIZE];
/// store[..10].copy_from_slice(&[0x31, 0x01, 0, 0, 2, 0, 0, 0, 16, 0]);
/// store[16..32].copy_from_slice(b"PRESS 4 HOLD 5AM");
///
/// // Two copies of the job: what one has converted, the other leaves.
/// let (mut one, mut two) = (Job::default(), Job::default());
/// assert_eq!(job_step(&mut one, &old, &new, &mut store), Ok(Outcome::Converted));
/// assert_eq!(job_step(&mut two, &old, &new, &mut store), Ok(Outcome::Already));
/// let mut text = [0; 16];
/// assert_eq!(read(&old, &new, &store, 305, &mut text)?.revision, 2);
/// assert_eq!(&text, b"PRESS 4 HOLD 5AM");
/// # Ok::<(), lagunedo::Refusal>(())
/// ```
///
/// # Errors
///
/// Those of [`step`]; the store and the job are then as they were.
pub fn job_step(
    job: &mut Job,
    old_key: &[u8],
    new_key: &[u8],
    store: &mut [u8],
) -> Result<Outcome, Refusal> {
    let mut number = 0;
    // SAFETY: as for the step by its place; the job has C's layout.
    let returned = unsafe {
        lagunedo_job_step(
            job,
            old_key.as_ptr(),
            old_key.len(),
            new_key.as_ptr(),
            new_key.len(),
            store.as_mut_ptr(),
            store.len(),
            &mut number,
        )
    };
    answer(returned).map(|()| outcome(number))
}

/// The outcome with a number. The library gives no number above 4.
fn outcome(number: u32) -> Outcome {
    match number {
        0 => Outcome::Done,
        1 => Outcome::Free,
        2 => Outcome::Damaged,
        3 => Outcome::Already,
        4 => Outcome::Converted,
        _ => unreachable!("outcome {number}"),
    }
}
