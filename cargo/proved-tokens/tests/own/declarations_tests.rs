// Made from crates/declarations_tests/src/lib.rt by dev/erase: change that file, not this one.
//! Tests of `declarations`: for each text, the number of trees in each part, or where the error is.

#[cfg(test)]
mod tests;
