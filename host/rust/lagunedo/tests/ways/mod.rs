//! One call of the store, or of XTS, made in every way: as C makes it, by the safe
//! functions, and by the second implementation. All have to return the same
//! and to leave the same in all memory that is lent.

mod raw;

use calls::{by_safe, by_second};
pub use calls::{Call, Memory, What};

/// A way of making a call: what it returns, and the memory after it. The
/// number moves the addresses of what is lent.
type Way = fn(&Call, &Memory, usize) -> (u32, Memory);

const WAYS: [(&str, Way); 2] = [("as C calls it", raw::call), ("by the safe function", safe)];

/// What all ways return and leave. Where a step is made, it is made with its
/// job lent too.
pub fn agree(
    call: &Call,
    before: &Memory,
    shift: usize,
    name: &dyn Fn() -> String,
) -> (u32, Memory) {
    let mut wanted = before.clone();
    let number = by_second(call, wanted.lent());
    let mut whats = vec![call.what];
    whats.extend((call.what == What::Step).then_some(What::JobStep));
    for (what, (how, way)) in whats.iter().flat_map(|w| WAYS.map(|way| (w, way))) {
        let call = Call {
            what: *what,
            ..*call
        };
        let ours = way(&call, before, shift);
        assert_eq!(ours.0, number, "{}: {call:?} {how}", name());
        let difference = ours.1.difference(&wanted);
        assert_eq!(difference, None, "{}: {call:?} {how}", name());
    }
    (number, wanted)
}

fn safe(call: &Call, before: &Memory, _: usize) -> (u32, Memory) {
    let mut after = before.clone();
    (by_safe(call, after.lent()), after)
}
