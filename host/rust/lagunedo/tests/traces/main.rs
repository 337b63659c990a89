//! Demand 3, run: random traces of whole calls, in any order, conversions of
//! sheets under XTS-AES among them, with several copies of the rekeying job
//! interleaved, on a store that passes the check.
//! Beside the store there is the plain list of 01, kept by the test, and the
//! store of the second implementation. After each call the answer is that of
//! both and every byte is the second's; the texts decipher to the list; the
//! store passes the check; and the two claims of demand 3, on the last slot and
//! on one of two revisions, hold.
//!
//! A failing trace prints its seed and its event. It comes from its seed alone,
//! and `make host-trace LAGUNEDO_TRACE=0x..` runs it by itself.

mod event;
mod last_slot;
mod list;
mod look;
mod one_of_two;
mod run;
mod script;
mod start;
mod tally;
mod texts;
mod trace;

use inputs::Random;
use run::{key_lengths, run, LARGE, LARGE_EVENTS, SMALL, SMALL_EVENTS};
use start::Start;
use tally::Tally;
use trace::Trace;

/// Traces on small stores, for each choice of the keys' lengths.
const SMALL_TRACES: usize = 500;
const _: () = assert!(4 * SMALL_TRACES >= 2_000 && SMALL_EVENTS >= 200);

/// Traces on the largest stores.
const LARGE_TRACES: usize = 10;
const _: () = assert!(LARGE_TRACES >= 10 && LARGE_EVENTS >= 200);

/// The traces of these seeds, each of so many events.
fn all(seeds: impl Iterator<Item = u64>, traces: usize, events: usize) -> Tally {
    let mut tally = Tally::default();
    seeds.take(traces).for_each(|seed| run(seed, &mut tally));
    println!("{} traces, {} events", tally.traces, tally.events());
    assert_eq!([tally.traces, tally.events()], [traces, traces * events]);
    tally
}

/// The traces on 0 to 40 slots whose keys are of these lengths.
fn small(old: usize, new: usize) {
    let seeds = (SMALL..LARGE).filter(|seed| key_lengths(*seed) == [old, new]);
    let tally = all(seeds, SMALL_TRACES, SMALL_EVENTS);
    tally.each_answer(100);
    tally.each_claim([250, 60, 50, 1_500, 100]);
}

#[test]
fn from_48_bytes_to_48() {
    small(48, 48);
}

#[test]
fn from_48_bytes_to_64() {
    small(48, 64);
}

#[test]
fn from_64_bytes_to_48() {
    small(64, 48);
}

#[test]
fn from_64_bytes_to_64() {
    small(64, 64);
}

/// Traces on 1,024 slots, with every choice of the keys' lengths. They are too
/// few for each answer and for a sheet that comes back.
#[test]
fn largest() {
    let tally = all(LARGE.., LARGE_TRACES, LARGE_EVENTS);
    tally.each_answer(0);
    tally.each_claim([4, 1, 1, 200, 0]);
}

/// The trace of the seed that `LAGUNEDO_TRACE` names.
#[test]
#[ignore = "runs one trace again, that of the seed in LAGUNEDO_TRACE"]
fn alone() {
    let seed = std::env::var("LAGUNEDO_TRACE").expect("a seed in LAGUNEDO_TRACE");
    let digits = seed.trim_start_matches("0x");
    let seed = u64::from_str_radix(digits, 16).expect("a seed in hex");
    run(seed, &mut Tally::default());
}

/// Threads that share the keys and a store, and only read.
#[test]
fn several_readers() {
    let trace = Trace::new(Start::draw(&mut Random::new(SMALL), 5, [48, 64]));
    std::thread::scope(|scope| {
        for _ in 0..4 {
            scope.spawn(|| {
                for _ in 0..50 {
                    trace.read_all(&trace.keys.old);
                    trace.look();
                }
            });
        }
    });
}
