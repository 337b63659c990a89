//! A whole trace, from its seed alone.

use crate::script::Script;
use crate::start::Start;
use crate::tally::Tally;
use crate::trace::Trace;
use inputs::Random;

/// The seeds of traces on small stores begin here: four for each number of
/// slots, one for each choice of the two keys' lengths, and then over again.
pub const SMALL: u64 = 0x0057_0472_ace0_0000;

/// The most slots of a small store.
const SMALL_SLOTS: u64 = 40;

/// Events of a trace on a small store.
pub const SMALL_EVENTS: usize = 200;

/// The seeds of traces on the largest stores begin here.
pub const LARGE: u64 = SMALL + 0x1_0000;

/// Events of such a trace: many, and mostly steps, so that a copy of the job
/// gets to the last slot.
pub const LARGE_EVENTS: usize = 4_000;

/// What is settled before anything is drawn.
struct Plan {
    slots: usize,
    events: usize,
    /// How many events of a hundred are steps.
    steps: usize,
    /// The whole store is deciphered and checked once in so many events.
    look: usize,
}

impl Plan {
    fn of(seed: u64) -> Self {
        if seed >= LARGE {
            return Self {
                slots: 1_024,
                events: LARGE_EVENTS,
                steps: 85,
                look: 400,
            };
        }
        let round = seed.checked_sub(SMALL).expect("a seed from SMALL on") / 4;
        let slots = SMALL_SLOTS + 1;
        Self {
            slots: (round % slots) as usize,
            events: SMALL_EVENTS,
            steps: [85, 40, 15, 60][(round / slots % 4) as usize],
            look: 10,
        }
    }
}

/// The lengths of the old and the new key, each by a bit of the seed.
pub fn key_lengths(seed: u64) -> [usize; 2] {
    [0, 1].map(|bit| [48, 64][(seed >> bit & 1) as usize])
}

/// Says where a failing trace stood.
struct Position {
    seed: u64,
    slots: usize,
    at: String,
}

impl Drop for Position {
    fn drop(&mut self) {
        if std::thread::panicking() {
            let Self { seed, slots, at } = self;
            eprintln!("the trace of seed {seed:#x} (slots: {slots}) failed {at}");
        }
    }
}

/// Runs the trace of a seed, and adds what it met.
pub fn run(seed: u64, tally: &mut Tally) {
    let plan = Plan::of(seed);
    let mut position = Position {
        seed,
        slots: plan.slots,
        at: "before its first event".to_owned(),
    };
    let mut random = Random::new(seed);
    let start = Start::draw(&mut random, plan.slots, key_lengths(seed));
    let mut script = Script::new(random, start.numbers.clone(), plan.steps);
    let mut trace = Trace::new(start);
    for n in 0..plan.events {
        let event = script.event(&trace.list, &trace.copies);
        position.at = format!("at event {n}: {event}");
        trace.event(&event);
        if n % plan.look == 0 {
            trace.look();
        }
    }
    position.at = "after its last event".to_owned();
    trace.end();
    tally.add(&trace);
}
