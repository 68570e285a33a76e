//! Numbers that a seed decides: splitmix64.

pub struct Rng(u64);

impl Rng {
    /// Each trace of a seed has numbers of its own, so that it can be made without the others.
    pub fn new(seed: u64, trace: u64) -> Self {
        Self(Self(seed).next().wrapping_add(Self(trace).next()))
    }

    pub fn next(&mut self) -> u64 {
        self.0 = self.0.wrapping_add(0x9E37_79B9_7F4A_7C15);
        let mixed = (self.0 ^ (self.0 >> 30)).wrapping_mul(0xBF58_476D_1CE4_E5B9);
        let mixed = (mixed ^ (mixed >> 27)).wrapping_mul(0x94D0_49BB_1331_11EB);
        mixed ^ (mixed >> 31)
    }

    /// A number under `bound`. The bounds here are small: that a remainder is not quite even
    /// doesn't matter.
    pub fn below(&mut self, bound: u64) -> u64 {
        self.next() % bound
    }

    /// An index under `length`.
    pub fn index(&mut self, length: usize) -> usize {
        self.below(length as u64) as usize
    }

    pub fn pick<T: Copy>(&mut self, choices: &[T]) -> T {
        choices[self.index(choices.len())]
    }

    pub fn one_in(&mut self, number: u64) -> bool {
        self.below(number) == 0
    }

    pub fn flag(&mut self) -> bool {
        self.one_in(2)
    }
}
