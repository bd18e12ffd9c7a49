//! What the jobs alone name of Rattle's `std`, over the shim of `proved-tokens`.
pub use proved_tokens::shim::*;

pub mod hash {
    pub use proved_tokens::shim::hash::*;

    const START: u64 = 0x243f_6a88_85a3_08d3;
    const MULTIPLIER: u64 = 0x9e37_79b9_7f4a_7c15;

    /// The hasher of Rattle's maps: it answers the same numbers on every machine.
    pub struct FoldHasher(u64);

    impl Default for FoldHasher {
        fn default() -> FoldHasher {
            FoldHasher(START)
        }
    }

    impl Hasher for FoldHasher {
        fn finish(&self) -> u64 {
            self.0
        }

        fn write(&mut self, bytes: &[u8]) {
            let length = bytes.len();
            if length <= 8 {
                self.0 = product(self.0 ^ short(bytes), MULTIPLIER ^ (2 * length as u64));
                return;
            }
            let mut state = self.0.wrapping_add(length as u64);
            let mut rest = bytes;
            while rest.len() > 16 {
                state = product(word(rest, 0) ^ state, word(rest, 8) ^ MULTIPLIER);
                rest = &rest[16..];
            }
            let last = word(bytes, length.saturating_sub(16)) ^ state;
            self.0 = product(last, word(bytes, length - 8) ^ MULTIPLIER);
        }
    }

    // Both halves of the product, joined.
    fn product(a: u64, b: u64) -> u64 {
        let whole = u128::from(a) * u128::from(b);
        whole as u64 ^ (whole >> 64) as u64
    }

    // The four bytes from `at` on as a number, the lowest first.
    fn half(bytes: &[u8], at: usize) -> u64 {
        u64::from(u32::from_le_bytes([bytes[at], bytes[at + 1], bytes[at + 2], bytes[at + 3]]))
    }

    // The eight bytes from `at` on as a number.
    fn word(bytes: &[u8], at: usize) -> u64 {
        half(bytes, at) | half(bytes, at + 4) << 32
    }

    // At most eight bytes as a number, by reads that may overlap.
    fn short(bytes: &[u8]) -> u64 {
        match bytes.len() {
            0 => 0,
            length @ 1..=3 => {
                u64::from(bytes[0]) | u64::from(bytes[length / 2]) << 8 | u64::from(bytes[length - 1]) << 16
            }
            length => half(bytes, 0) | half(bytes, length - 4) << 32,
        }
    }
}
