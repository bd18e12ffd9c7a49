// Made from crates/lexical_tests/src/tally.rt by dev/erase: change that file, not this one.
//! Counts what was compared.

/// How many texts were compared, and how often. The numbers stop at `u64::MAX`.
#[derive(Clone, Copy)]
pub struct Tally {
    /// The number of texts.
    pub texts: u64,
    /// The number of comparisons, at each character of each text and of its beginnings.
    pub comparisons: u64,
    /// The number of comparisons in which the two lexers differ.
    pub differ: u64,
}

impl Tally {
    /// Counts a comparison, in which the two lexers give the same result or not.
    pub fn count(&mut self, same: bool)
    {
        self.comparisons = self.comparisons.saturating_add(1);
        if !same {
            self.differ = self.differ.saturating_add(1);
        }
    }
}
