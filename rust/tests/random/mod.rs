//! Numbers that look random, and are the same in each run.

/// A linear congruential generator (Knuth's MMIX). Any seed will do.
pub struct Dice(pub u64);

impl Dice {
    /// A number below `bound`, from the upper bits of the state.
    pub fn below(&mut self, bound: u64) -> u64 {
        self.0 = self
            .0
            .wrapping_mul(6_364_136_223_846_793_005)
            .wrapping_add(1_442_695_040_888_963_407);
        (self.0 >> 33) % bound
    }
}
