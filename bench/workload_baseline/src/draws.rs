// The generator that all draws come from.

/// A linear congruential generator of 64 bits, the upper 31 of which are drawn.
pub struct Draws(u64);

impl Draws {
    pub fn new(number: u32) -> Self {
        Draws(number.into())
    }

    /// A number below a limit, which is above 0.
    pub fn below(&mut self, limit: u32) -> u32 {
        self.0 = self
            .0
            .wrapping_mul(6_364_136_223_846_793_005)
            .wrapping_add(1_442_695_040_888_963_407);
        (self.0 >> 33) as u32 % limit
    }
}
