//! Rust's traits for the library's types. They are by hand, each a line over a proved call. `tests/native.rs` tries
//! them.

mod errors;
mod iterators;
mod tokens;
