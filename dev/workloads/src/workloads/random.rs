// Made from crates/workloads/src/random.rt by dev/erase: change that file, not this one.
//! Numbers by a seed.

/// A source of numbers that look random: the same seed gives the same ones.
pub struct Random {
    state: u64,
}

impl Random {
    /// The numbers of this seed.
    pub fn new(seed: u64) -> Random {
        // A step of another generator takes seeds that are alike apart.
        let mut state = seed.wrapping_add(0x9e37_79b9_7f4a_7c15);
        state = (state ^ (state >> 30)).wrapping_mul(0xbf58_476d_1ce4_e5b9);
        state = (state ^ (state >> 27)).wrapping_mul(0x94d0_49bb_1331_11eb);
        Random { state: state | 1 }
    }

    /// A number.
    pub fn next(&mut self) -> u64 {
        self.state ^= self.state << 13;
        self.state ^= self.state >> 7;
        self.state ^= self.state << 17;
        self.state
    }

    /// A number below the bound, which isn't 0.
    pub fn below(&mut self, bound: u64) -> u64
    {
        (self.next() >> 11) % bound
    }

    /// An index below the count, or 0 where that is 0.
    pub fn index(&mut self, count: u64) -> usize {
        if count == 0 {
            return 0;
        }
        self.below(count) as usize
    }

    /// One of the texts, if there are any.
    pub fn one_of<'a>(&mut self, texts: &[&'a str]) -> &'a str {
        if texts.is_empty() {
            return "";
        }
        let at = self.below(texts.len() as u64) as usize;
        texts[at]
    }
}
