//! Compares with recorded answers on standard input, as the program `conformance` does: `dev/fuzz.py` asks both.
#[allow(clippy::complexity, clippy::style, unreachable_code, unused_imports)]
mod conformance;
use std::io::{self, Write};
use std::process::ExitCode;

fn main() -> io::Result<ExitCode> {
    let mut out = io::BufWriter::new(io::stdout().lock());
    let tally = conformance::compare_lines(io::stdin().lock(), &mut out)?;
    writeln!(out, "{} answers, {} differences", tally.answers, tally.differences)?;
    out.flush()?;
    Ok(if tally.differences == 0 { ExitCode::SUCCESS } else { ExitCode::FAILURE })
}
