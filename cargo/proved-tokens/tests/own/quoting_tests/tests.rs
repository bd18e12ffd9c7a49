// Made from crates/quoting_tests/src/tests.rt by dev/erase: change that file, not this one.
//! The tests by their subjects, and what they share.

mod checks;
mod random_trees;
mod rows;
mod templates;
mod trees;
mod values;
