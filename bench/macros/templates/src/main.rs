//! Makes the call of a row over and over: `templates ROW CALLS`. Without words it prints the names of the rows.
use std::hint::black_box;
use templates::{check, ROWS};

fn main() {
    let words: Vec<String> = std::env::args().skip(1).collect();
    match words.as_slice() {
        [] => {
            check();
            ROWS.iter().for_each(|(name, _)| println!("{name}"));
        }
        [name, calls] => {
            let (_, row) = ROWS.iter().find(|row| row.0 == name).expect("ROW is the name of a row");
            row(calls.parse().expect("CALLS is a number"), |made| drop(black_box(made)));
        }
        _ => panic!("templates [ROW CALLS]"),
    }
}
