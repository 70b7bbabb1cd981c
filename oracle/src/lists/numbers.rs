//! Random numbers that are the same everywhere: the generator splitmix64.

pub struct Numbers {
    state: u64,
}

impl Numbers {
    /// The numbers of one list: lists of one seed differ, and each can be made
    /// without those before it.
    pub fn new(seed: u64, list: u64) -> Self {
        let mut numbers = Numbers {
            state: seed.wrapping_mul(0xD1B5_4A32_D192_ED03) ^ list,
        };
        numbers.next();
        numbers
    }

    fn next(&mut self) -> u64 {
        self.state = self.state.wrapping_add(0x9E37_79B9_7F4A_7C15);
        let mut z = self.state;
        z = (z ^ (z >> 30)).wrapping_mul(0xBF58_476D_1CE4_E5B9);
        z = (z ^ (z >> 27)).wrapping_mul(0x94D0_49BB_1331_11EB);
        z ^ (z >> 31)
    }

    /// A number below `bound`, which is not 0.
    pub fn below(&mut self, bound: usize) -> usize {
        (((self.next() >> 32) * bound as u64) >> 32) as usize
    }

    pub fn one_in(&mut self, bound: usize) -> bool {
        self.below(bound) == 0
    }

    pub fn pick<T: Copy>(&mut self, from: &[T]) -> T {
        from[self.below(from.len())]
    }
}
