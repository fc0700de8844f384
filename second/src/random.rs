//! A small source of random numbers, the same on every machine.

/// SplitMix64: one 64-bit word of state, and every seed is a good one.
#[derive(Clone, Debug)]
pub struct Random {
    state: u64,
}

impl Random {
    /// A source that gives the same numbers for the same seed.
    #[must_use]
    pub fn new(seed: u64) -> Random {
        Random { state: seed }
    }

    /// The next 64 bits.
    pub fn word(&mut self) -> u64 {
        self.state = self.state.wrapping_add(0x9E37_79B9_7F4A_7C15);
        let mut mixed = self.state;
        mixed = (mixed ^ (mixed >> 30)).wrapping_mul(0xBF58_476D_1CE4_E5B9);
        mixed = (mixed ^ (mixed >> 27)).wrapping_mul(0x94D0_49BB_1331_11EB);
        mixed ^ (mixed >> 31)
    }

    /// A number from 0 to `limit` less 1; 0 where the limit is 0.
    pub fn below(&mut self, limit: u32) -> u32 {
        // The high half of a product spreads evenly enough for logs.
        ((u64::from(limit) * (self.word() >> 32)) >> 32) as u32
    }

    /// A number from `least` to `most`, both included.
    pub fn between(&mut self, least: u16, most: u16) -> u16 {
        least + self.below(u32::from(most - least) + 1) as u16
    }

    /// As [`Random::between`], for one byte.
    pub fn small(&mut self, least: u8, most: u8) -> u8 {
        self.between(least.into(), most.into()) as u8
    }

    /// Any byte.
    pub fn byte(&mut self) -> u8 {
        self.small(0, u8::MAX)
    }

    /// True so many times in a hundred.
    pub fn chance(&mut self, percent: u32) -> bool {
        self.below(100) < percent
    }

    /// One of the things given.
    pub fn pick<T: Copy>(&mut self, things: &[T]) -> T {
        things[self.below(things.len() as u32) as usize]
    }
}

#[cfg(test)]
mod tests {
    use super::*;

    #[test]
    fn the_numbers_are_those_of_splitmix64() {
        // First values for seed 0, as published with the method.
        let mut random = Random::new(0);
        assert_eq!(random.word(), 0xE220_A839_7B1D_CDAF);
        assert_eq!(random.word(), 0x6E78_9E6A_A1B9_65F4);
    }

    #[test]
    fn numbers_keep_their_range_and_reach_its_ends() {
        let mut random = Random::new(7);
        let mut seen = [false; 4];
        for _ in 0..200 {
            let number = random.between(3, 6);
            seen[usize::from(number - 3)] = true;
            assert_eq!(random.below(1), 0);
        }
        assert_eq!(seen, [true; 4]);
        assert!(random.chance(100));
        assert!(!random.chance(0));
    }
}
