//! What the traces met. A claim that no trace comes near shows nothing, so the
//! tests ask for each of these numbers to be large.

use crate::trace::Trace;
use lagunedo::Refusal;
use std::collections::BTreeMap;

/// The answers that each call can give on a sound store under two good keys:
/// 0 or 01's numbers, in its order, and for a step its outcomes but damaged; of
/// a conversion 02's numbers first.
const ANSWERS: [(&str, &[u32]); 6] = [
    ("read", &[0, 5, 7, 13]),
    ("add", &[0, 5, 6, 11, 10]),
    ("convert", &[0, 15, 16, 5, 6, 11, 10]),
    ("revise", &[0, 5, 6, 7, 8, 9]),
    ("remove", &[0, 5, 7]),
    ("step", &[0, 1, 3, 4]),
];

/// How often each call gave each answer.
#[derive(Default)]
pub struct Answers(BTreeMap<(&'static str, u32), usize>);

impl Answers {
    /// A call was accepted with a number, or refused.
    pub fn count(&mut self, call: &'static str, answer: Result<u32, Refusal>) {
        let number = answer.unwrap_or_else(Refusal::number);
        *self.0.entry((call, number)).or_default() += 1;
    }

    fn add(&mut self, other: &Self) {
        for (answer, count) in &other.0 {
            *self.0.entry(*answer).or_default() += count;
        }
    }

    fn events(&self) -> usize {
        self.0.values().sum()
    }
}

/// The sums over several traces.
#[derive(Default)]
pub struct Tally {
    pub traces: usize,
    answers: Answers,
    reached: usize,
    needed: usize,
    mixed: usize,
    second: usize,
    anew: usize,
}

impl Tally {
    /// A trace that has ended.
    pub fn add(&mut self, trace: &Trace) {
        self.traces += 1;
        self.answers.add(&trace.answers);
        self.reached += usize::from(trace.last_slot.reached());
        self.needed += usize::from(trace.last_slot.needed);
        self.mixed += usize::from(trace.last_slot.mixed());
        let refused = &trace.one_of_two.refused;
        let number = Refusal::OtherRevision.number();
        self.second += refused.get(&number).copied().unwrap_or(0);
        self.anew += trace.one_of_two.anew;
    }

    pub fn events(&self) -> usize {
        self.answers.events()
    }

    /// Each answer came about so often, and no other did.
    pub fn each_answer(&self, least: usize) {
        let mut named = 0;
        for (call, numbers) in ANSWERS {
            for number in numbers {
                let count = self.answers.0.get(&(call, *number)).copied().unwrap_or(0);
                at_least(least, count, &format!("{call} answered {number}"));
                named += count;
            }
        }
        assert_eq!(named, self.events(), "an answer that 01 does not name");
    }

    /// The claims were tried so often: the traces in which the last-slot claim
    /// said something, in which one step less had not been enough, and in which
    /// several copies and all kinds of changes had their part; the second
    /// revisions that were refused with 8, and those accepted after a removal.
    pub fn each_claim(&self, least: [usize; 5]) {
        let met = [
            (self.reached, "last slot: traces that reached it"),
            (self.needed, "last slot: one step less would not do"),
            (self.mixed, "last slot: several copies, and changes between"),
            (self.second, "one of two: the second refused with 8"),
            (self.anew, "one of two: both, the sheet removed between"),
        ];
        for (least, (count, what)) in least.into_iter().zip(met) {
            at_least(least, count, what);
        }
    }
}

fn at_least(least: usize, count: usize, what: &str) {
    println!("{what}: {count}");
    assert!(count >= least, "{what}: {count}, and {least} are asked for");
}
