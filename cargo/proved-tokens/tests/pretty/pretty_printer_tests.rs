//! The program `pretty_printer_tests`, but for its `main`.
mod rows;

pub use rows::write_rows;
