//! Random bytes that are the same in every run, so that a failure can be
//! repeated from the seed it prints.

/// The generator splitmix64: a counter, mixed.
#[derive(Clone, Debug)]
pub struct Random {
    counter: u64,
}

impl Random {
    /// A generator that gives the same numbers for the same seed.
    #[must_use]
    pub fn new(seed: u64) -> Self {
        Self { counter: seed }
    }

    /// The next 64 bits.
    pub fn word(&mut self) -> u64 {
        self.counter = self.counter.wrapping_add(0x9e37_79b9_7f4a_7c15);
        let mut z = self.counter;
        z = (z ^ (z >> 30)).wrapping_mul(0xbf58_476d_1ce4_e5b9);
        z = (z ^ (z >> 27)).wrapping_mul(0x94d0_49bb_1331_11eb);
        z ^ (z >> 31)
    }

    /// Overwrites every byte.
    pub fn fill(&mut self, bytes: &mut [u8]) {
        for part in bytes.chunks_mut(8) {
            part.copy_from_slice(&self.word().to_le_bytes()[..part.len()]);
        }
    }

    /// As many bytes as asked for.
    pub fn bytes(&mut self, length: usize) -> Vec<u8> {
        let mut bytes = vec![0; length];
        self.fill(&mut bytes);
        bytes
    }

    /// A number below another, which is not 0.
    pub fn below(&mut self, n: usize) -> usize {
        (self.word() % n as u64) as usize
    }

    /// True once in so many times.
    pub fn one_in(&mut self, n: usize) -> bool {
        self.below(n) == 0
    }

    /// One of the items, of which there is at least one.
    pub fn pick<T: Copy>(&mut self, from: &[T]) -> T {
        from[self.below(from.len())]
    }

    /// So many of the items, each at most once, in any order.
    pub fn some_of<T>(&mut self, mut items: Vec<T>, count: usize) -> Vec<T> {
        for k in 0..count {
            let other = k + self.below(items.len() - k);
            items.swap(k, other);
        }
        items.truncate(count);
        items
    }
}

#[cfg(test)]
mod tests {
    use super::Random;

    /// The first numbers of splitmix64 from seed 0, as published with it.
    #[test]
    fn first_words() {
        let mut random = Random::new(0);
        assert_eq!(random.word(), 0xe220_a839_7b1d_cdaf);
        assert_eq!(random.word(), 0x6e78_9e6a_a1b9_65f4);
        assert_eq!(random.word(), 0x06c4_5d18_8009_454f);
    }

    /// Every choice comes about, and none but those asked for.
    #[test]
    fn choices() {
        let mut random = Random::new(0);
        let mut met = [0; 5];
        (0..500).for_each(|_| met[random.below(5)] += 1);
        assert!(met.iter().all(|n| *n > 50), "{met:?}");
        let often = (0..500).filter(|_| random.one_in(5)).count();
        assert!((50..200).contains(&often), "{often}");
        let picked: Vec<u8> = (0..50).map(|_| random.pick(&[3, 7])).collect();
        assert!(picked.contains(&3) && picked.contains(&7));
        assert!(picked.iter().all(|n| [3, 7].contains(n)));
    }

    /// None of the items twice, and each of them at each place.
    #[test]
    fn some() {
        let mut random = Random::new(0);
        let mut met = [[0; 4]; 2];
        for _ in 0..200 {
            let two = random.some_of(vec![0, 1, 2, 3], 2);
            assert_eq!(two.len(), 2);
            assert_ne!(two[0], two[1]);
            met[0][two[0]] += 1;
            met[1][two[1]] += 1;
        }
        assert!(met.iter().flatten().all(|n| *n > 20), "{met:?}");
        assert_eq!(random.some_of(vec![5], 1), [5]);
        assert!(random.some_of(vec![5], 0).is_empty());
    }
}
