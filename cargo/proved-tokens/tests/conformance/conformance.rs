//! The program `conformance`, but for its `main`.

mod answer;
mod columns;
mod contents;
mod leaves;
mod lines;
mod lists;
mod literals;
mod spans;
mod streams;
mod values;

pub use lines::compare_lines;
