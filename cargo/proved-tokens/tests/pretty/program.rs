//! Writes what is answered of the streams of standard input, as the program `pretty_printer_tests` does; by the word
//! `whole`
//! each text as it is. `bench/pretty_record/remake.py` asks it.
#[allow(clippy::complexity, clippy::style, unreachable_code, unused_imports)]
mod pretty_printer_tests;
use std::env;
use std::io::{self, Read, Write};
use std::process::ExitCode;

fn main() -> io::Result<ExitCode> {
    let mut lines = String::new();
    io::stdin().read_to_string(&mut lines)?;
    let whole = env::args().nth(1).as_deref() == Some("whole");
    let mut out = io::BufWriter::new(io::stdout().lock());
    let wrong = pretty_printer_tests::write_rows(&lines, whole, &mut out)?;
    out.flush()?;
    Ok(if wrong == 0 { ExitCode::SUCCESS } else { ExitCode::FAILURE })
}
