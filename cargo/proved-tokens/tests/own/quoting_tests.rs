// Made from crates/quoting_tests/src/lib.rt by dev/erase: change that file, not this one.
//! Tests of quotes: printed texts of each kind of tree, the examples of the README, templates, and random trees.

#[cfg(test)]
mod tests;
