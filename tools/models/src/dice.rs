//! Numbers that look random, and are the same for the same seed.

/// A linear congruential generator (Knuth's MMIX).
#[derive(Debug)]
pub struct Dice(pub u64);

impl Dice {
    /// A number below `bound`, which is above 0, from the upper bits of the state.
    pub fn below(&mut self, bound: u64) -> u64 {
        self.0 = self
            .0
            .wrapping_mul(6_364_136_223_846_793_005)
            .wrapping_add(1_442_695_040_888_963_407);
        (self.0 >> 33) % bound
    }

    /// Whether one of so many cases comes.
    pub fn one_in(&mut self, cases: u64) -> bool {
        self.below(cases) == 0
    }

    /// One of these.
    pub fn of<T: Copy>(&mut self, all: &[T]) -> T {
        all[self.below(all.len() as u64) as usize]
    }
}
