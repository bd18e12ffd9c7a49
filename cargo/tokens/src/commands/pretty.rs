//! `tokens pretty` prints the tokens of a source text so that people read them well. Plain comments are left out, and a
//! line on standard error says how many.

use crate::messages::{read_text, Failure};
use crate::pretty::answer::print_text;
use crate::pretty::options::{options_of, Options};
use crate::pretty::report::{report, status};
use proved_tokens::shim::process::HostRuntime;
use std::io::{BufWriter, Write};

/// Prints the text that the words name, and answers the status.
pub fn run(rt: &HostRuntime, words: &[String], mut errors: &mut dyn Write) -> Result<u8, Failure> {
    let options = options_of(words)?;
    let outcome = print(rt, &options);
    let _ = report(options.path.as_str(), options.deny, &outcome, &mut errors);
    Ok(status(options.deny, &outcome))
}

// Prints the tokens of the text, and answers how many comments it has.
fn print(rt: &HostRuntime, options: &Options) -> Result<usize, Failure> {
    let text = read_text(rt, options.path.as_str())?;
    let mut writer = BufWriter::new(rt.stdout());
    let count = print_text(text.as_str(), options.deny, &mut writer)?;
    writer.flush()?;
    Ok(count)
}
