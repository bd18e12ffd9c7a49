//! Rows over the library with no features.
#[path = "../../calls.rs"]
mod calls;
mod lexing;
mod maps;

fn main() {
    calls::run(&[maps::ROWS, lexing::ROWS]);
}
