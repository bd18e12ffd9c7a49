// Made from crates/pm_stream_tests/src/tests.rt by dev/erase: change that file, not this one.
//! The tests by their subjects, and what they share.

mod beginnings;
mod building;
mod built_streams;
mod byte_cache;
mod checks;
mod cited_laws;
mod group_spans;
mod iterators;
mod new_trees;
mod parsing;
mod printing;
mod random_streams;
mod rows;
mod same_tokens;
mod shown_trees;
mod spans;
mod streams;
mod tree_spans;
