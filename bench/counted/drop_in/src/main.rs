//! Rows through the package in the public crate's place: those of dev/bench.
#[path = "../../calls.rs"]
mod calls;
mod quoted;
mod streams;
mod tokens;

fn main() {
    calls::run(&[tokens::ROWS, streams::ROWS, quoted::ROWS]);
}
