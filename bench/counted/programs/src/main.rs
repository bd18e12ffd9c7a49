//! Rows over the library with the features of the programs in cargo/tokens.
#[path = "../../calls.rs"]
mod calls;
mod templates;
mod texts;

fn main() {
    calls::run(&[texts::ROWS, templates::ROWS]);
}
