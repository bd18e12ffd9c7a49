//! Makes one call over and over, for bench/counts: `PROGRAM ROW CALLS`. `PROGRAM` alone prints the names of its rows.
use std::hint::black_box;

/// A row: its name, and what makes its call so many times, after it has made what the call needs.
pub type Row = (&'static str, fn(u32));

/// Makes a call so many times, and drops each answer.
pub fn repeat<T>(calls: u32, mut call: impl FnMut() -> T) {
    for _ in 0..calls {
        drop(black_box(call()));
    }
}

/// Does what the words of the program ask for.
pub fn run(groups: &[&[Row]]) {
    let words: Vec<String> = std::env::args().skip(1).collect();
    let mut rows = groups.iter().flat_map(|rows| rows.iter());
    match words.as_slice() {
        [] => rows.for_each(|(name, _)| println!("{name}")),
        [name, calls] => {
            let calls = calls.parse().expect("CALLS is a number");
            let (_, row) = rows.find(|row| row.0 == name).expect("ROW is the name of a row");
            row(calls);
        }
        _ => panic!("PROGRAM [ROW CALLS]"),
    }
}
