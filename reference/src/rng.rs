//! A small deterministic generator of numbers.

/// The generator's state.
#[derive(Clone, Debug, PartialEq, Eq)]
pub struct Rng {
    state: u64,
}

impl Rng {
    /// A generator that gives the same numbers for the same seed.
    pub fn new(seed: u64) -> Rng {
        Rng { state: seed }
    }

    /// The next number (splitmix64).
    #[inline]
    pub fn draw(&mut self) -> u64 {
        self.state = self.state.wrapping_add(0x9e37_79b9_7f4a_7c15);
        let mut mixed = self.state;
        mixed = (mixed ^ (mixed >> 30)).wrapping_mul(0xbf58_476d_1ce4_e5b9);
        mixed = (mixed ^ (mixed >> 27)).wrapping_mul(0x94d0_49bb_1331_11eb);
        mixed ^ (mixed >> 31)
    }

    /// A number below `count`; 0 where `count` is 0.
    #[inline]
    pub fn below(&mut self, count: u64) -> u64 {
        ((u128::from(self.draw()) * u128::from(count)) >> 64) as u64
    }

    /// A number from `least` to `greatest`, both included; `least` where the
    /// range is empty.
    #[inline]
    pub fn within(&mut self, least: u64, greatest: u64) -> u64 {
        if greatest <= least {
            return least;
        }
        match (greatest - least).checked_add(1) {
            Some(count) => least + self.below(count),
            None => self.draw(),
        }
    }

    /// True once in `count` times on average.
    #[inline]
    pub fn one_in(&mut self, count: u64) -> bool {
        self.below(count) == 0
    }
}

#[cfg(test)]
mod tests {
    use super::*;

    #[test]
    fn known_numbers() {
        let mut rng = Rng::new(1_234_567);
        assert_eq!(rng.draw(), 6_457_827_717_110_365_317);
        assert_eq!(rng.draw(), 3_203_168_211_198_807_973);
        assert_eq!(rng.draw(), 9_817_491_932_198_370_423);
    }

    #[test]
    fn the_same_seed_gives_the_same_numbers() {
        let mut left = Rng::new(7);
        let mut right = Rng::new(7);
        for _ in 0..100 {
            assert_eq!(left.draw(), right.draw());
        }
        assert_ne!(Rng::new(7).draw(), Rng::new(8).draw());
    }

    #[test]
    fn ranges() {
        let mut rng = Rng::new(3);
        let mut seen = [false; 5];
        for _ in 0..1_000 {
            seen[rng.below(5) as usize] = true;
            let number = rng.within(16, 18);
            assert!((16..=18).contains(&number));
        }
        assert_eq!(seen, [true; 5]);
        assert_eq!(rng.below(0), 0);
        assert_eq!(rng.below(1), 0);
        assert_eq!(rng.within(9, 9), 9);
        assert_eq!(rng.within(9, 3), 9);
        rng.within(0, u64::MAX);
        assert!(rng.one_in(1));
    }
}
