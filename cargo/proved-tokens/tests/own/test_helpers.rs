// Made from crates/test_helpers/src/lib.rt by dev/erase: change that file, not this one.
//! What the crates of tests share: a drop that is proved once, and random numbers.

mod random;

pub use random::Random;

/// Drops the value.
///
/// Tests let go of tokens, streams and maps by this call, because a drop of an enum that is written out makes the proof
/// of a test longer.
pub fn release<T>(value: T) {
    let _value = value;
}
