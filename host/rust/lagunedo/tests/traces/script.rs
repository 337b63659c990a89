//! Draws the events of a trace, so that most calls are accepted, and every
//! refusal and every retry comes about often.

use crate::event::Event;
use crate::list::List;
use crate::texts;
use inputs::Random;

pub struct Script {
    random: Random,
    /// The sheet numbers that are mostly asked for.
    numbers: Vec<u32>,
    /// How many events of a hundred are steps.
    steps: usize,
    /// The calls so far that were to change a sheet.
    past: Vec<Event>,
    /// The copy of the job that made the last step.
    copy: usize,
}

impl Script {
    pub fn new(random: Random, numbers: Vec<u32>, steps: usize) -> Self {
        Self {
            random,
            numbers,
            steps,
            past: vec![],
            copy: 0,
        }
    }

    /// The next event, where the store is as the list has it and the copies of
    /// the job stand at these places.
    pub fn event(&mut self, list: &List, copies: &[u64]) -> Event {
        if self.random.below(100) < self.steps {
            return self.step(list.places.len(), copies);
        }
        if !self.past.is_empty() && self.random.one_in(4) {
            return self.retry();
        }
        let event = match self.random.below(14) {
            0..=2 => return self.read(list),
            3..=5 => self.add(list),
            6..=9 => self.revise(list),
            10..=11 => self.convert(list),
            _ => Event::Remove {
                sheet: self.present(list),
            },
        };
        self.past.push(event.clone());
        event
    }

    /// Some steps of one copy, then of another, more often of an early one, so
    /// that it gets to the end. A new copy begins once in about as many steps
    /// as there are slots, and mostly where one would be done.
    fn step(&mut self, slots: usize, copies: &[u64]) -> Event {
        if self.random.one_in(4) {
            let [one, other] = [(); 2].map(|()| self.random.below(copies.len()));
            self.copy = one.min(other);
        }
        let done = copies[self.copy] >= slots as u64;
        if self.random.one_in(slots + 8) || done && !self.random.one_in(4) {
            self.copy = copies.len();
        }
        Event::Step {
            copy: self.copy,
            lent: self.random.one_in(2),
        }
    }

    /// An earlier call word for word, mostly one of the latest; or a revision
    /// with another text, as of a second operator who saw the same revision.
    fn retry(&mut self) -> Event {
        let calls = self.past.len();
        let latest = if self.random.one_in(4) { calls } else { 6 };
        let back = self.random.below(latest.min(calls));
        let mut event = self.past[calls - 1 - back].clone();
        if let Event::Revise { text, .. } = &mut event {
            if self.random.one_in(2) {
                *text = texts::given(&mut self.random);
            }
        }
        event
    }

    /// A buffer around the length of the sheet's text, or of any length.
    fn read(&mut self, list: &List) -> Event {
        let sheet = self.present(list);
        let stored = list.found(sheet).map_or(0, |(_, sheet)| sheet.text.len());
        let length = match self.random.below(8) {
            0 => 0,
            1 | 2 => stored.saturating_sub(1),
            3 | 4 => stored,
            5 => stored + 1,
            6 => self.random.below(2_200),
            _ => stored + self.random.below(60),
        };
        let buffer = self.random.bytes(length);
        Event::Read { sheet, buffer }
    }

    fn add(&mut self, list: &List) -> Event {
        let sheet = self.absent(list);
        let text = texts::given(&mut self.random);
        Event::Add { sheet, text }
    }

    /// Mostly the unit of a text; now and then under a key of a wrong length.
    fn convert(&mut self, list: &List) -> Event {
        let sheet = self.absent(list);
        let text = texts::given(&mut self.random);
        let length = match self.random.below(32) {
            0 => self.random.pick(&[0, 16, 31, 33, 48, 63, 65]),
            n if n % 2 == 1 => 32,
            _ => 64,
        };
        let key = self.random.bytes(length);
        let number = match self.random.below(4) {
            0 => self.random.pick(&[0, 255, 1 << 32, u64::MAX]),
            _ => self.random.word(),
        };
        let mut unit = text.clone();
        second::xts(&key, false, number, &mut unit);
        Event::Convert {
            sheet,
            key,
            number,
            unit,
            text,
        }
    }

    /// Mostly the stored revision is named.
    fn revise(&mut self, list: &List) -> Event {
        let sheet = self.present(list);
        let stored = list.found(sheet).map_or(1, |(_, sheet)| sheet.revision);
        let seen = match self.random.below(16) {
            0 => stored - 1,
            1 => stored.wrapping_add(1),
            2 => stored.wrapping_add(65_536),
            3 => self.random.pick(&[0, 1, 65_535, 65_536, u32::MAX]),
            _ => stored,
        };
        let text = texts::given(&mut self.random);
        Event::Revise { sheet, seen, text }
    }

    /// Mostly the number of a sheet in the list.
    fn present(&mut self, list: &List) -> u32 {
        let place = self.random.below(list.places.len().max(1));
        match list.places.get(place) {
            Some(Some(sheet)) if !self.random.one_in(8) => sheet.number,
            _ => self.any(),
        }
    }

    /// Mostly a number that is not in the list.
    fn absent(&mut self, list: &List) -> u32 {
        let mut number = self.any();
        for _ in 0..self.random.below(6) {
            if list.found(number).is_some() {
                number = self.any();
            }
        }
        number
    }

    fn any(&mut self) -> u32 {
        match self.random.below(16) {
            0 => 0,
            1 => self.random.word() as u32,
            _ => self.random.pick(&self.numbers),
        }
    }
}
