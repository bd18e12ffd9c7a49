// Made from crates/item_headers_tests/src/lib.rt by dev/erase: change that file, not this one.
//! Tests of the trees that a derive writes: items, and the headers of the `impl`s for them.

#[cfg(test)]
mod rows;
