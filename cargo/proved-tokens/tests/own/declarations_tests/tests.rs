// Made from crates/declarations_tests/src/tests.rt by dev/erase: change that file, not this one.
//! The tests by their subjects, and what they share.

mod any_items;
mod attributes;
mod checks;
mod compile_errors;
mod endings;
mod entries;
mod expected;
mod files;
mod function;
mod generic_arguments;
mod generics;
mod impls;
mod items;
mod lists;
mod parameters;
mod parts;
mod type_paths;
