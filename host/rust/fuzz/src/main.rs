//! The plain driver, which needs no fuzzer, so that the gate runs the same body
//! everywhere:
//!
//! - `fuzz COUNT` makes so many scripts, which come from their numbers alone
//! - `fuzz one NUMBER` makes the script of a number again
//! - `fuzz file PATH` makes the script that a file holds, as libFuzzer keeps it

use fuzz::{complete, counted, table, LLVMFuzzerTestOneInput, LONGEST};
use inputs::Random;
use std::process::ExitCode;
use std::sync::atomic::{AtomicU64, Ordering};

const SHORTEST: usize = 16;

/// Each answer of each call comes at least once in so many scripts.
const SCRIPTS_AN_ANSWER: u64 = 250;

/// The script that is being made.
static NUMBER: AtomicU64 = AtomicU64::new(0);

/// Says which script ended the process: the handler of a signal, which ends
/// it once the handler has returned.
extern "C" fn told(signal_number: i32) {
    eprintln!(
        "fuzz: signal {signal_number} in script {}",
        NUMBER.load(Ordering::Relaxed)
    );
    // SAFETY: as below.
    unsafe { signal(signal_number, 0) };
}

extern "C" {
    fn signal(number: i32, handler: usize) -> usize;
}

/// SIGILL, SIGABRT, which a difference raises, SIGBUS, SIGFPE, SIGSEGV.
const SIGNALS: [i32; 5] = [4, 6, 7, 8, 11];

fn make(script: &[u8]) {
    // SAFETY: a slice has as many bytes as its length says.
    unsafe { LLVMFuzzerTestOneInput(script.as_ptr(), script.len()) };
}

/// Each script by its own number, so that it is the same in a longer run.
fn make_number(number: u64) {
    NUMBER.store(number, Ordering::Relaxed);
    let mut random = Random::new(number);
    let length = SHORTEST + random.below(LONGEST - SHORTEST + 1);
    make(&random.bytes(length));
}

fn parsed(number: &str) -> Result<u64, String> {
    number.parse().map_err(|e| format!("{number}: {e}"))
}

fn run(arguments: &[&str]) -> Result<(), String> {
    match arguments {
        ["one", number] => make_number(parsed(number)?),
        ["file", path] => make(&std::fs::read(path).map_err(|e| format!("{path}: {e}"))?),
        [count] => {
            let scripts = parsed(count)?;
            (0..scripts).for_each(make_number);
            print!("{}", table());
            complete(scripts / SCRIPTS_AN_ANSWER)?;
            print!("fuzz: {count} scripts, ");
        }
        _ => return Err("usage: fuzz COUNT | fuzz one NUMBER | fuzz file PATH".to_owned()),
    }
    println!("{} calls, as the second implementation has them", counted());
    Ok(())
}

fn main() -> ExitCode {
    for number in SIGNALS {
        // SAFETY: the handler touches a number and standard error alone.
        unsafe { signal(number, told as extern "C" fn(i32) as usize) };
    }
    let arguments: Vec<String> = std::env::args().skip(1).collect();
    let arguments: Vec<&str> = arguments.iter().map(String::as_str).collect();
    match run(&arguments) {
        Ok(()) => ExitCode::SUCCESS,
        Err(what) => {
            eprintln!("fuzz: {what}");
            ExitCode::FAILURE
        }
    }
}
