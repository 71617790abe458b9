//! Random numbers that are the same at every run.

/// A small generator of even-handed numbers; the seed alone decides them.
pub struct Random {
    state: u64,
}

impl Random {
    pub fn new(seed: u64) -> Random {
        Random { state: seed.wrapping_mul(0x9e37_79b9_7f4a_7c15) }
    }

    /// The numbers of neighbouring seeds overlap in `new`; here they are far apart.
    pub fn apart(seed: u64) -> Random {
        Random::new(Random::new(seed).bits())
    }

    pub fn bits(&mut self) -> u64 {
        self.state = self.state.wrapping_add(0x9e37_79b9_7f4a_7c15);
        let mut mixed = self.state;
        mixed = (mixed ^ (mixed >> 30)).wrapping_mul(0xbf58_476d_1ce4_e5b9);
        mixed = (mixed ^ (mixed >> 27)).wrapping_mul(0x94d0_49bb_1331_11eb);
        mixed ^ (mixed >> 31)
    }

    /// From least to greatest, both included.
    pub fn between(&mut self, least: i64, greatest: i64) -> i64 {
        least + (self.bits() % (greatest - least + 1) as u64) as i64
    }

    pub fn below(&mut self, count: usize) -> usize {
        (self.bits() % count as u64) as usize
    }

    pub fn percent(&mut self, chance: i64) -> bool {
        self.between(0, 99) < chance
    }

    pub fn pick<T: Copy>(&mut self, choices: &[T]) -> T {
        choices[self.below(choices.len())]
    }

    /// One of the choices, each as often as its weight says.
    pub fn weighted<T: Copy>(&mut self, choices: &[(i64, T)]) -> T {
        let sum: i64 = choices.iter().map(|choice| choice.0).sum();
        let mut left = self.between(0, sum - 1);
        for &(weight, choice) in choices {
            if left < weight {
                return choice;
            }
            left -= weight;
        }
        choices[0].1
    }
}
