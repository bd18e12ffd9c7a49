// Made from crates/token_buffer_tests/src/lib.rt by dev/erase: change that file, not this one.
//! Tests of token buffers, and of the openers that `explain` returns.
//!
//! They are in a crate of their own, because a crate that has tests is proved a second time with them.

#[cfg(test)]
mod tests;
