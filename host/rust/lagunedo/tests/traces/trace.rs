//! A store, its plain list and the second implementation's store, with each
//! call done on all of them.

use crate::event::Event;
use crate::last_slot::LastSlot;
use crate::list::List;
use crate::one_of_two::OneOfTwo;
use crate::start::{Keys, Start};
use crate::tally::Answers;
use lagunedo::{add, add_xts, job_step, read, remove, revise, step, Found, Job, Outcome, Refusal};
use second::record::RECORD;

pub struct Trace {
    pub keys: Keys,
    pub store: Vec<u8>,
    /// The second implementation's store after the calls so far.
    wanted: Vec<u8>,
    pub list: List,
    /// The places of the copies of the job.
    pub copies: Vec<u64>,
    pub last_slot: LastSlot,
    pub one_of_two: OneOfTwo,
    pub answers: Answers,
}

impl Trace {
    pub fn new(start: Start) -> Self {
        let mut trace = Self {
            keys: start.keys,
            wanted: start.store.clone(),
            list: start.list,
            copies: vec![],
            last_slot: LastSlot::new(&start.store),
            one_of_two: OneOfTwo::default(),
            answers: Answers::default(),
            store: start.store,
        };
        for place in start.copies {
            trace.begin(place);
        }
        trace.look();
        trace
    }

    /// Does an event on the store, on the list and on the second store. The
    /// answers are the same, the claims hold, and so is every byte.
    pub fn event(&mut self, event: &Event) {
        let keys = self.keys.lent();
        let (store, wanted) = (&mut self.store, &mut self.wanted);
        let answer = match event {
            Event::Read { sheet, buffer } => self.read(keys.old, *sheet, buffer).map(|_| 0),
            Event::Add { sheet, text } => {
                let answer = add(keys.old, keys.new, store, *sheet, text);
                let by_second = second::add(keys, wanted, *sheet, text);
                let by_list = self.list.add(*sheet, text);
                self.changed(event, answer, by_second, by_list)
            }
            Event::Convert {
                sheet,
                key,
                number,
                unit,
                text,
            } => {
                let answer = add_xts(key, *number, unit, keys.old, keys.new, store, *sheet);
                let by_second = second::add_xts(key, *number, unit, keys, wanted, *sheet);
                let by_list = self.list.convert(key, unit, *sheet, text);
                self.changed(event, answer, by_second, by_list)
            }
            Event::Revise { sheet, seen, text } => {
                let answer = revise(keys.old, keys.new, store, *sheet, *seen, text);
                let by_second = second::revise(keys, wanted, *sheet, *seen, text);
                self.one_of_two.revised(*sheet, *seen, answer);
                let by_list = self.list.revise(*sheet, *seen, text);
                self.changed(event, answer, by_second, by_list)
            }
            Event::Remove { sheet } => {
                let answer = remove(store, *sheet).map(|()| 0);
                let by_second = second::remove(wanted, *sheet).map(|()| 0);
                self.one_of_two.removed(*sheet, answer);
                let by_list = self.list.remove(*sheet);
                self.changed(event, answer, by_second, by_list)
            }
            Event::Step { copy, lent } => Ok(self.step(*copy, *lent) as u32),
        };
        self.answers.count(event.name(), answer);
        self.last_slot.holds(&self.store);
        self.same_bytes();
    }

    fn begin(&mut self, place: u64) {
        self.copies.push(place);
        self.last_slot.began(place);
    }

    /// The whole buffer is compared, refused or not.
    pub fn read(&self, old_key: &[u8], sheet: u32, buffer: &[u8]) -> Result<Found, Refusal> {
        let [mut ours, mut wanted] = [buffer.to_vec(), buffer.to_vec()];
        let answer = read(old_key, &self.keys.new, &self.store, sheet, &mut ours);
        assert_eq!(answer, self.list.read(sheet, &mut wanted), "sheet {sheet}");
        assert!(ours == wanted, "the buffer is not as the list has it");
        answer
    }

    /// After an add, a conversion, a revision or a removal: 0, or why it was refused.
    fn changed(
        &mut self,
        event: &Event,
        answer: Result<u32, Refusal>,
        by_second: Result<u32, u32>,
        by_list: Result<u32, Refusal>,
    ) -> Result<u32, Refusal> {
        assert_eq!(answer, by_list, "beside the list");
        assert_eq!(answer.map_err(Refusal::number), by_second, "the second");
        answer?;
        self.last_slot.changed(event.name());
        Ok(0)
    }

    /// The list keeps what it holds.
    fn step(&mut self, copy: usize, lent: bool) -> Outcome {
        if copy == self.copies.len() {
            self.begin(0);
        }
        let before = self.copies[copy];
        let mut moved = before;
        let wanted = second::step(self.keys.lent(), &mut self.wanted, &mut moved);
        let (answer, place) = self.make_step(before, lent);
        let outcome = answer.expect("keys and a store that 01 takes");
        assert_eq!(Ok(outcome as u32), wanted.map(|w| w as u32), "at {before}");
        assert_eq!(place, moved, "the place after {before}");
        self.copies[copy] = place;
        let converted = outcome == Outcome::Converted;
        self.last_slot.stepped(copy, converted, &self.store);
        outcome
    }

    /// By value or with its job lent.
    fn make_step(&mut self, mut place: u64, lent: bool) -> (Result<Outcome, Refusal>, u64) {
        let Keys { old, new } = &self.keys;
        if lent {
            let mut job = Job { place };
            let answer = job_step(&mut job, old, new, &mut self.store);
            return (answer, job.place);
        }
        let answer = step(old, new, &mut self.store, &mut place);
        (answer, place)
    }

    fn same_bytes(&self) {
        let mut slots = self.store.chunks(RECORD).zip(self.wanted.chunks(RECORD));
        let other = slots.position(|(ours, wanted)| ours != wanted);
        assert_eq!(other, None, "a slot whose bytes are not the second's");
    }
}
