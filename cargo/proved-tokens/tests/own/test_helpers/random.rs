// Made from crates/test_helpers/src/random.rt by dev/erase: change that file, not this one.
//! Random numbers.

/// A source of random numbers, which are the same in each run.
pub struct Random {
    /// The last number, which is not 0.
    state: u64,
}

impl Random {
    /// Makes the source with this seed, which must not be 0.
    pub fn new(seed: u64) -> Random {
        Random { state: seed }
    }

    /// Returns a number below the bound, which must not be 0.
    pub fn below(&mut self, bound: u64) -> u64
    {
        self.state ^= self.state << 13;
        self.state ^= self.state >> 7;
        self.state ^= self.state << 17;
        self.state % bound
    }

    /// Returns a number that is at most `most`.
    pub fn up_to(&mut self, most: u32) -> u32 {
        self.below(most as u64 + 1) as u32
    }

    /// Returns one of these values. There must be at least one.
    pub fn one_of<T: Copy>(&mut self, values: &[T]) -> T
    {
        values[self.below(values.len() as u64) as usize]
    }
}
