// Made from crates/workloads/src/digest.rt by dev/erase: change that file, not this one.
//! A digest of all answers of a job.

use crate::shim::hash::{FoldHasher, Hasher};

/// A digest of what was put in, in order.
pub struct Digest {
    state: u64,
}

impl Digest {
    /// The digest of nothing.
    pub fn new() -> Digest {
        Digest { state: 1 }
    }

    /// Puts a text in.
    pub fn text(&mut self, text: &str) {
        self.bytes(text.as_bytes());
    }

    /// Puts bytes in.
    pub fn bytes(&mut self, bytes: &[u8]) {
        let mut hasher = FoldHasher::default();
        hasher.write(bytes);
        self.number(hasher.finish());
    }

    /// Puts a number in.
    #[cfg_attr(not(debug_assertions), inline(always))]
    pub fn number(&mut self, number: u64) {
        let mixed = (self.state ^ number).wrapping_mul(0x9e37_79b9_7f4a_7c15);
        self.state = mixed ^ (mixed >> 29);
    }

    /// The digest of all that was put in.
    pub fn value(&self) -> u64 {
        self.state
    }
}
