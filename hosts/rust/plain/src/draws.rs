//! The numbers that the benchmarks draw: from one seed always the same.

pub struct Draws(pub u64);

impl Draws {
    /// A number below the end, which is at least 1.
    pub fn below(&mut self, end: u64) -> u64 {
        let next = self.0.wrapping_mul(6_364_136_223_846_793_005);
        self.0 = next.wrapping_add(1_442_695_040_888_963_407);
        (self.0 >> 33) % end
    }
}
