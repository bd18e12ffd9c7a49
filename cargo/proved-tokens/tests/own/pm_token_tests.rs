// Made from crates/pm_token_tests/src/lib.rt by dev/erase: change that file, not this one.
//! Tests of the lexer, of contents, of tokens, of spans and of the source map. The expected results come from
//! outside. They cover what the recorded answers of `conformance` do not.
//!
//! The tests are in a crate of their own, because a crate that has tests is proved once more with them.

#[cfg(test)]
mod tests;
