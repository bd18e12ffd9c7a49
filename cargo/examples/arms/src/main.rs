//! Usage: arms FILE... Prints `FILE:LINE:COLUMN: text` for each match with an idle last arm, with columns from 1.
use std::error::Error;

fn main() -> Result<(), Box<dyn Error>> {
    for path in std::env::args().skip(1) {
        match arms::idle_arms(&std::fs::read_to_string(&path)?) {
            Ok(places) => places
                .iter()
                .for_each(|place| println!("{path}:{}:{}: the last arm does nothing", place.line, place.column + 1)),
            Err(error) => eprintln!("{path}: {error}"),
        }
    }
    Ok(())
}
