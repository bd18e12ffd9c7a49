// Made from crates/token_buffer_tests/src/tests.rt by dev/erase: change that file, not this one.
//! The tests by their subjects, and what they share.

mod checks;
mod cursors;
mod openers;
