//! The fuzz target's body: one input, whoever makes it, is read as a script of
//! calls. Each call is made by the library, on memory that stands against
//! pages which may not be touched, by the safe functions over it, and by the
//! second implementation; what it returns and every byte have to be the same.
//!
//! - `script`: bytes read as choices
//! - `store`: the bytes of a store, sound as often as not
//! - `draw`: the next call, with the lengths of what is lent
//! - `room`: memory lent to the library
//! - `body`: a whole script
//! - `tally`: how often each call answered each number

mod body;
mod draw;
mod room;
mod script;
mod store;
mod tally;

pub use tally::{complete, counted, table};

/// The longest script, in bytes. `fuzz.mk` tells libFuzzer too.
pub const LONGEST: usize = 512;

/// Makes the script that the bytes are, as libFuzzer asks for it and as the
/// driver does. A difference is told on standard error and ends the process.
///
/// # Safety
///
/// There are as many bytes as the size says.
#[no_mangle]
pub unsafe extern "C" fn LLVMFuzzerTestOneInput(bytes: *const u8, size: usize) -> i32 {
    let script = match size {
        0 => &[], // libFuzzer's pointer may be null then
        // SAFETY: the caller's.
        _ => unsafe { std::slice::from_raw_parts(bytes, size) },
    };
    // No panic may leave a call that C makes.
    std::panic::catch_unwind(|| body::run(script)).unwrap_or_else(|_| std::process::abort());
    0
}

/// Asks for the table of answers at the end of libFuzzer's run.
#[no_mangle]
pub extern "C" fn LLVMFuzzerInitialize(_: *mut i32, _: *mut *mut *mut u8) -> i32 {
    extern "C" {
        fn atexit(call: extern "C" fn()) -> i32;
    }
    extern "C" fn tell() {
        eprintln!(
            "{}fuzz: {} calls, as the second implementation has them",
            table(),
            counted()
        );
    }
    // SAFETY: the call takes no argument and does not unwind.
    unsafe { atexit(tell) }
}
