//! Pseudo-random numbers, the same in each run.

/// A generator of numbers (Marsaglia's xorshift).
pub struct Numbers(u64);

impl Numbers {
    /// Returns the generator of a seed that is not 0.
    pub const fn new(seed: u64) -> Numbers {
        Numbers(seed)
    }

    /// Returns a number below a bound.
    pub fn below(&mut self, bound: u64) -> u64 {
        self.0 ^= self.0 << 13;
        self.0 ^= self.0 >> 7;
        self.0 ^= self.0 << 17;
        (self.0 >> 11) % bound
    }

    /// Returns a place in a list of this length, which is not 0.
    pub fn place(&mut self, length: usize) -> usize {
        self.below(length as u64) as usize
    }

    /// Returns one of these.
    pub fn one_of<T: Copy>(&mut self, of: &[T]) -> T {
        of[self.place(of.len())]
    }
}
