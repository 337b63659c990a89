//! Which calls of EME2-AES are refused, with which number, and that all lent
//! memory then holds what it held (01: transform 1, 2, 3).

mod common;

use common::{by_second, library};
use inputs::Random;
use lagunedo::{eme2_decipher, eme2_encipher, Refusal};

const SEED: u64 = 0x0e4e_2bad;

/// 01's table, in its order.
fn number([key, ad, message]: [usize; 3]) -> u32 {
    if key != 48 && key != 64 {
        1
    } else if !(16..=65_536).contains(&message) {
        2
    } else if ad > 1_024 {
        3
    } else {
        0
    }
}

/// A call with random bytes of these lengths, both ways, answers as 01's table
/// says, and what it leaves is right. `library` looks at the key, the data and
/// the bytes around all three. Returns the number.
fn call(lengths: [usize; 3], seed: u64) -> u32 {
    let mut random = Random::new(seed);
    let [key, ad, message] = lengths.map(|n| random.bytes(n));
    let wanted = number(lengths);
    let name = format!("seed {seed:#x}, lengths of key, data and message {lengths:?}");
    for back in [false, true] {
        let ours = library(&key, back, &ad, &message, seed as usize % 256);
        assert_eq!(ours.0, wanted, "{name}");
        if wanted != 0 {
            assert!(ours.1 == message, "the message changed: {name}");
        }
        assert!(ours == by_second(&key, back, &ad, &message), "{name}");
    }
    wanted
}

/// Every combination of these lengths. Returns how many calls, in each
/// direction, ended with each number.
fn combinations(keys: &[usize], ads: &[usize], messages: &[usize], seed: u64) -> [usize; 4] {
    let mut ended = [0; 4];
    let mut seeds = seed..;
    for key in keys {
        for ad in ads {
            for message in messages {
                let seed = seeds.next().expect("seeds do not run out");
                ended[call([*key, *ad, *message], seed) as usize] += 1;
            }
        }
    }
    ended
}

#[test]
fn keys() {
    let bad: Vec<usize> = (0..=70).filter(|n| ![48, 64].contains(n)).collect();
    assert_eq!(bad.len(), 69);
    let more = [bad, vec![80, 96, 112, 128, 1_024, 65_536]].concat();
    let ended = combinations(&more, &[0, 16], &[16, 100], SEED);
    assert_eq!(ended, [0, 4 * 75, 0, 0]);
}

/// Lengths that would be taken if only their lower bits were looked at stand
/// among the messages and the data.
const FOLDED_MESSAGES: [usize; 5] = [
    (1 << 17) + 100,
    (1 << 20) + 16,
    (1 << 20) + 2_096,
    (1 << 21) + 65_536,
    (1 << 24) + 47,
];
const FOLDED_DATA: [usize; 5] = [
    1 << 16,
    (1 << 16) + 16,
    (1 << 17) + 1_024,
    (1 << 20) + 1,
    (1 << 24) + 5,
];

#[test]
fn messages() {
    let bad: Vec<usize> = (0..=15)
        .chain([65_537, 65_552, 70_000])
        .chain(FOLDED_MESSAGES)
        .collect();
    let ended = combinations(&[48, 64], &[0, 16, 1_024], &bad, SEED + 1_000);
    assert_eq!(ended, [0, 0, 6 * 24, 0]);
}

#[test]
fn data() {
    let bad = [&[1_025, 1_040, 2_000], &FOLDED_DATA[..]].concat();
    let ended = combinations(&[48, 64], &bad, &[16, 17, 2_096, 65_536], SEED + 2_000);
    assert_eq!(ended, [0, 0, 0, 2 * 8 * 4]);
}

/// Each of the three good or bad: all eight combinations, several times over.
#[test]
fn order() {
    let [good_keys, bad_keys] = [vec![48, 64], vec![0, 16, 32, 47, 49, 63, 65]];
    let [good_ads, bad_ads] = [vec![0, 1, 1_024], vec![1_025, 1_040]];
    let [good_messages, bad_messages] = [vec![16, 17], vec![0, 15, 65_537]];
    let mut seed = SEED + 3_000;
    for (keys, first) in [(good_keys, 0), (bad_keys, 1)] {
        for (ads, third) in [(&good_ads, 0), (&bad_ads, 3)] {
            for (messages, second) in [(&good_messages, 0), (&bad_messages, 2)] {
                let wanted = [first, second, third].into_iter().find(|n| *n != 0);
                let mut all = [0; 4];
                all[wanted.unwrap_or(0)] = keys.len() * ads.len() * messages.len();
                assert_eq!(combinations(&keys, ads, messages, seed), all);
                seed += 100;
            }
        }
    }
}

/// 01, both sides of each edge, as it lists them.
#[test]
fn edges() {
    let ads = [0, 1, 15, 16, 17, 1_024, 1_025];
    let messages = [15, 16, 17, 65_536, 65_537];
    let ended = combinations(&[48, 64], &ads, &messages, SEED + 4_000);
    assert_eq!(ended, [2 * 6 * 3, 0, 2 * 7 * 2, 2 * 3]);
}

#[test]
fn refusal_carries_the_number() {
    for call in [eme2_encipher, eme2_decipher] {
        for (lengths, wanted, number) in [
            ([47, 1_025, 15], Refusal::KeyLength, 1),
            ([48, 1_025, 15], Refusal::MessageLength, 2),
            ([48, 1_025, 16], Refusal::DataLength, 3),
        ] {
            let [key, ad, mut message] = lengths.map(|n| vec![0; n]);
            let refusal = call(&key, &ad, &mut message).unwrap_err();
            assert_eq!(refusal, wanted);
            assert_eq!(refusal.number(), number);
        }
    }
}
