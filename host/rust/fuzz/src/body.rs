//! A whole script: how memory is lent, two keys, the bytes of a store, then
//! calls with their arguments and damage to the store between them.

use crate::draw::{self, Drawn, COPIES, KEY_MOST};
use crate::room::{Near, Room, GAP_MOST};
use crate::script::Script;
use crate::{store, tally};
use calls::{by_safe, by_second, Lent, Memory};
use inputs::Random;
use second::record::RECORD;
use std::sync::{LazyLock, Mutex};

/// No script takes long: few calls are made on a store of many slots.
const EVENTS_MOST: u64 = 64;
const EVENTS_MOST_ON_MANY: u64 = 8;
const MANY: usize = 64 * RECORD;

/// Mapped once, for all scripts.
static ROOM: LazyLock<Mutex<Room>> = LazyLock::new(|| Mutex::new(Room::open()));

/// What a script works on.
struct Play {
    near: Near,
    /// How long the keys are as a rule.
    keys: [usize; 2],
    memory: Memory,
    /// The places of the copies of the job.
    places: [u64; COPIES],
}

pub fn run(bytes: &[u8]) {
    let mut script = Script::new(bytes);
    let seed = script.number(4) << 32;
    let mut play = Play::drawn(&mut script, seed);
    let few = play.memory.store.len() < MANY;
    let most = if few {
        EVENTS_MOST
    } else {
        EVENTS_MOST_ON_MANY
    };
    for event in 0..most {
        if script.ended() {
            break;
        }
        if script.chance(240) {
            play.call(&mut script, Random::new(seed + event));
        } else {
            store::damage(&mut script, &mut play.memory.store);
        }
    }
}

impl Play {
    fn drawn(script: &mut Script, seed: u64) -> Self {
        let choice = script.byte();
        let mut random = Random::new(seed);
        let length = |bit: u8| if choice & bit != 0 { 48 } else { 64 };
        let gap = usize::from(choice >> 5) % (GAP_MOST + 1);
        Self {
            near: Near {
                at_end: choice & 1 != 0,
                gap: if choice & 16 != 0 { gap } else { 0 },
            },
            keys: [length(4), length(8)],
            memory: Memory {
                old_key: random.bytes(KEY_MOST),
                new_key: random.bytes(KEY_MOST),
                xts_key: random.bytes(KEY_MOST),
                store: store::drawn(script),
                ..Memory::default()
            },
            places: [0; COPIES],
        }
    }

    /// One call, with other bytes for what it is lent beside keys and store. A
    /// transform that was made is undone by the other direction.
    fn call(&mut self, script: &mut Script, mut random: Random) {
        let mut drawn = draw::drawn(script, self.keys, &self.memory.store);
        let place = &mut self.places[drawn.copy];
        *place = drawn.place.unwrap_or(*place);
        self.memory.data = random.bytes(drawn.data);
        self.memory.text = random.bytes(drawn.text);
        random.fill(&mut self.memory.block);
        self.memory.words = [(); 6].map(|()| random.word() as u32);
        self.memory.place = *place;
        let before = self.memory.text.clone();
        let number = self.agreed(&drawn);
        self.places[drawn.copy] = self.memory.place;
        if let (0, Some(undoing)) = (number, drawn.call.what.undoing()) {
            drawn.call.what = undoing;
            let again = self.agreed(&drawn);
            assert!(
                again == 0 && self.memory.text == before,
                "not undone: {drawn:?}"
            );
        }
    }

    /// Makes the call in every way, and sees that they agree.
    fn agreed(&mut self, drawn: &Drawn) -> u32 {
        let mut room = ROOM.lock().expect("a panic ends the process");
        let made = room.made(drawn, &self.memory, self.near);
        let library = made.unwrap_or_else(|what| panic!("{what}: {drawn:?}, {:?}", self.near));
        let mut memory = self.memory.clone();
        let safely = (by_safe(&drawn.call, cut(drawn, &mut memory)), memory);
        let wanted = by_second(&drawn.call, cut(drawn, &mut self.memory));
        for (way, (number, after)) in [("as C calls it", library), ("safely", safely)] {
            assert_eq!(number, wanted, "{way}, the number returned: {drawn:?}");
            let difference = after.difference(&self.memory);
            assert_eq!(difference, None, "{way}: {drawn:?}");
        }
        tally::count(drawn.call.what, wanted, self.memory.words[0]);
        wanted
    }
}

/// What is lent of memory that needs no guard, since Rust keeps its bounds.
fn cut<'a>(drawn: &Drawn, memory: &'a mut Memory) -> Lent<'a> {
    let mut lent = memory.lent();
    lent.old_key = &lent.old_key[..drawn.old_key];
    lent.new_key = match drawn.one_key {
        true => lent.old_key,
        false => &lent.new_key[..drawn.new_key],
    };
    lent.xts_key = &lent.xts_key[..drawn.xts_key];
    lent.store = &mut lent.store[..drawn.store];
    lent
}
