//! A small seeded generator of numbers (splitmix64), so that the test files
//! are the same everywhere and need nothing from outside.

pub struct Random {
    state: u64,
}

impl Random {
    /// File `index` of a seed does not depend on the files before it.
    pub fn new(seed: u64, index: u64) -> Random {
        let mut random = Random { state: seed };
        let mixed = random.bits() ^ index.wrapping_mul(0xd134_2543_de82_ef95);
        Random { state: mixed }
    }

    pub fn bits(&mut self) -> u64 {
        self.state = self.state.wrapping_add(0x9e37_79b9_7f4a_7c15);
        let z = (self.state ^ (self.state >> 30)).wrapping_mul(0xbf58_476d_1ce4_e5b9);
        let z = (z ^ (z >> 27)).wrapping_mul(0x94d0_49bb_1331_11eb);
        z ^ (z >> 31)
    }

    /// From 0 up to but not including `end`.
    pub fn below(&mut self, end: u64) -> u64 {
        self.bits() % end
    }

    /// From `least` to `most`, both included.
    pub fn between(&mut self, least: i128, most: i128) -> i128 {
        assert!(least <= most);
        least + i128::from(self.bits()) % (most - least + 1)
    }

    /// True so many times in a hundred.
    pub fn chance(&mut self, in_a_hundred: u64) -> bool {
        self.below(100) < in_a_hundred
    }

    pub fn pick<T: Copy>(&mut self, from: &[T]) -> T {
        from[self.below(from.len() as u64) as usize]
    }

    /// A place in a list of that length, which is not empty.
    pub fn place(&mut self, length: usize) -> usize {
        self.below(length as u64) as usize
    }
}
