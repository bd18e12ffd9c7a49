//! `tokens find` finds the calls of a function or a macro by its name: it writes a line `FILE:L:C` for each.

use crate::find_calls::answer::{print_calls, status};
use crate::messages::{read_text, say, Failure};
use proved_tokens::shim::process::HostRuntime;
use std::io::{BufWriter, Write};

/// Searches what the words ask for, and answers the status.
pub fn run(rt: &HostRuntime, words: &[String], mut errors: &mut dyn Write) -> Result<u8, Failure> {
    let Some((name, paths)) = words.split_first() else {
        return Err(Failure::Usage(""));
    };
    let paths: Vec<&str> = if paths.is_empty() { vec!["-"] } else { paths.iter().map(String::as_str).collect() };
    let mut writer = BufWriter::new(rt.stdout());
    let mut found = false;
    let mut failed = false;
    for path in paths {
        match search(rt, name.as_str(), path, &mut writer) {
            Ok(any) => found = found || any,
            Err(Failure::Write(error)) => return Err(Failure::Write(error)),
            Err(failure) => {
                failed = true;
                let _ = say(path, &failure, &mut errors);
            }
        }
    }
    writer.flush()?;
    Ok(status(found, failed))
}

// Writes the calls in the text at the path, and answers whether there are any.
fn search<W: Write>(rt: &HostRuntime, name: &str, path: &str, writer: &mut W) -> Result<bool, Failure> {
    let text = read_text(rt, path)?;
    print_calls(path, name, text.as_str(), writer)
}
