//! A small generator of pseudo-random numbers (SplitMix64).

pub struct Rng(u64);

impl Rng {
    /// The stream of one file of a run: it depends on nothing but the run's seed and the file's number, so that a file
    /// can be made again without those before it.
    pub fn of_file(seed: u64, file_number: u64) -> Rng {
        let mut rng = Rng(seed ^ file_number.wrapping_mul(0xd6e8_feb8_6659_fd93));
        rng.word();
        rng
    }

    pub fn word(&mut self) -> u64 {
        self.0 = self.0.wrapping_add(0x9e37_79b9_7f4a_7c15);
        let z = (self.0 ^ (self.0 >> 30)).wrapping_mul(0xbf58_476d_1ce4_e5b9);
        let z = (z ^ (z >> 27)).wrapping_mul(0x94d0_49bb_1331_11eb);
        z ^ (z >> 31)
    }

    /// A number below `n`, which is at least 1.
    pub fn below(&mut self, n: usize) -> usize {
        ((u128::from(self.word()) * n as u128) >> 64) as usize
    }

    /// A number from `low` to `high`, both possible.
    pub fn between(&mut self, low: usize, high: usize) -> usize {
        low + self.below(high - low + 1)
    }

    /// True once in `n` times.
    pub fn one_in(&mut self, n: usize) -> bool {
        self.below(n) == 0
    }

    pub fn pick<T: Copy>(&mut self, choices: &[T]) -> T {
        choices[self.below(choices.len())]
    }

    /// One of the choices, if there are any.
    pub fn pick_any<T: Copy>(&mut self, choices: &[T]) -> Option<T> {
        (!choices.is_empty()).then(|| self.pick(choices))
    }

    pub fn shuffle<T>(&mut self, items: &mut [T]) {
        for i in (1..items.len()).rev() {
            items.swap(i, self.below(i + 1));
        }
    }

    /// A number at or around an edge of 16, 32, 63 or 64 bits, a small one, or any.
    pub fn edge(&mut self) -> u64 {
        let near = self.below(5) as u64;
        match self.below(8) {
            0 => u64::MAX - near,
            1 => (1 << 63) + near - 2,
            2 => (1 << 32) + near - 2,
            3 => (1 << 16) + near - 2,
            4 => near,
            5 => self.below(300) as u64,
            6 => 1 << self.below(64),
            _ => self.word() >> self.below(64),
        }
    }
}
