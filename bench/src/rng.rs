//! Numbers from a fixed seed, so that both sides and every run get the same.

/// SplitMix64.
pub struct Rng(u64);

impl Rng {
    pub fn new() -> Self {
        Self(0x0064_4300_0000_0001)
    }

    pub fn next(&mut self) -> u64 {
        self.0 = self.0.wrapping_add(0x9E37_79B9_7F4A_7C15);
        let mut x = self.0;
        x = (x ^ x >> 30).wrapping_mul(0xBF58_476D_1CE4_E5B9);
        x = (x ^ x >> 27).wrapping_mul(0x94D0_49BB_1331_11EB);
        x ^ x >> 31
    }
}
