//! Random stores against the listing of the second implementation.

use inputs::Random;
use listing::{listed, Lead, Slot, RECORD};
use second::listing;
use second::record::LEAD;

/// A failing store prints its own seed.
const SEED: u64 = 0x0115_7e0d_0000;

const STORES: u64 = 600;

/// A store of up to 31 slots, each free or sound; then at times one byte is
/// changed, or it is cut off anywhere, or zeros are added.
fn store(random: &mut Random) -> Vec<u8> {
    let slots = below(random, 32) as usize;
    let free = 1 + below(random, 6);
    let mut store = Vec::new();
    for k in 0..slots {
        let slot = sound(random, k as u32);
        let bytes = if below(random, free) == 0 {
            vec![0; RECORD]
        } else {
            slot.bytes()
        };
        store.extend(bytes);
    }
    match below(random, 8) {
        0 | 1 => damage(random, &mut store),
        2 => resize(random, &mut store),
        _ => (),
    }
    store
}

/// A sound slot with numbers of every size; sheet numbers differ by their
/// last five bits.
fn sound(random: &mut Random, k: u32) -> Lead {
    let sheet = random.word() as u32 >> below(random, 27);
    Lead {
        sheet: (sheet & !31 | k).max(32),
        revision: (random.word() as u32 >> below(random, 32)).max(1),
        mark: below(random, 3) as u8,
        length: 16 + (below(random, 2_081) >> below(random, 12)) as u16,
    }
}

/// Any byte, or one of a lead.
fn damage(random: &mut Random, store: &mut [u8]) {
    if store.is_empty() {
        return;
    }
    let at = below(random, store.len() as u64) as usize;
    let at = if below(random, 2) == 0 {
        at
    } else {
        at - at % RECORD + at % LEAD
    };
    store[at] ^= 1 << below(random, 8);
}

fn resize(random: &mut Random, store: &mut Vec<u8>) {
    store.resize(below(random, 100_000) as usize, 0);
}

fn below(random: &mut Random, n: u64) -> u64 {
    random.word() % n
}

/// Which of 01's outputs it is, by how it begins.
fn kind(output: &str) -> usize {
    let kinds = ["too long\n", "refused ", "fault at "];
    kinds
        .iter()
        .position(|kind| output.starts_with(kind))
        .unwrap_or(3)
}

#[test]
fn as_the_second_implementation() {
    let mut seen = [0; 4];
    for seed in SEED..SEED + STORES {
        let store = store(&mut Random::new(seed));
        let expected = listing(&store);
        assert_eq!(listed(&store), expected, "seed {seed:#x}");
        seen[kind(&expected)] += 1;
    }
    let [long, refused, fault, sound] = seen;
    println!("too long {long}, refused {refused}, faulty {fault}, sound {sound}");
    assert!(long >= 10 && refused >= 30 && fault >= 80 && sound >= 300);
}
