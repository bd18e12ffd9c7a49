// Made from crates/token_buffer_tests/src/tests/checks.rt by dev/erase: change that file, not this one.
//! The assertion that the tests share.

use crate::shim::fmt::Debug;
use crate::shim::process::Abort;

/// Asserts that the answer in a row of a test is the expected one. The row is printed if it fails.
pub fn check_answer<T: PartialEq + Debug>(rt: &impl Abort, row: &str, answer: &T, want: &T) {
    assert!(answer == want, "{answer:?} and not {want:?} of {row:?}");
}
