//! Numbers that look random and are the same for the same seed on every machine (splitmix64).

pub struct Random(u64);

impl Random {
    /// A stream of its own for each row of numbers, so that one use does not shift another.
    pub fn stream(name: &[u64]) -> Random {
        let mut random = Random(0);
        for part in name {
            random.0 ^= part;
            random.0 = random.next();
        }
        random
    }

    fn next(&mut self) -> u64 {
        self.0 = self.0.wrapping_add(0x9e37_79b9_7f4a_7c15);
        let mut z = self.0;
        z = (z ^ (z >> 30)).wrapping_mul(0xbf58_476d_1ce4_e5b9);
        z = (z ^ (z >> 27)).wrapping_mul(0x94d0_49bb_1331_11eb);
        z ^ (z >> 31)
    }

    /// From 0 up to but not including `bound`, which is above 0.
    pub fn below(&mut self, bound: u64) -> u64 {
        self.next() % bound
    }

    /// From 0 up to but not including `bound`, as an index.
    pub fn index(&mut self, bound: usize) -> usize {
        self.below(bound as u64) as usize
    }

    /// From `low` to `high`, both among them.
    pub fn between(&mut self, low: i64, high: i64) -> i64 {
        low + self.below((high - low + 1) as u64) as i64
    }

    pub fn byte(&mut self) -> u8 {
        self.below(256) as u8
    }

    pub fn bit(&mut self) -> u8 {
        self.below(2) as u8
    }

    pub fn percent(&mut self, chance: u64) -> bool {
        self.below(100) < chance
    }

    pub fn bytes<const N: usize>(&mut self) -> [u8; N] {
        std::array::from_fn(|_| self.byte())
    }

    pub fn bits<const N: usize>(&mut self) -> [u8; N] {
        std::array::from_fn(|_| self.bit())
    }

    /// `count` different places of `0..bound`; all of them where there are not so many.
    pub fn places(&mut self, count: usize, bound: usize) -> Vec<usize> {
        let mut all: Vec<usize> = (0..bound).collect();
        let count = count.min(bound);
        for n in 0..count {
            let pick = n + self.index(bound - n);
            all.swap(n, pick);
        }
        all.truncate(count);
        all
    }

    pub fn one_of<T: Copy>(&mut self, choices: &[T]) -> T {
        choices[self.index(choices.len())]
    }
}
