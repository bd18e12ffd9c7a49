// Made from crates/rust_check/src/files.rt by dev/erase: change that file, not this one.
//! Checks files one after the other.

use proved_tokens::shim::prelude::HostRuntime;

use crate::rust_check::answer::check_all;
use crate::rust_check::options::Options;
use crate::rust_check::tally::Tally;
use crate::messages::{Failure, read_text, say};
use proved_tokens::shim::io::Write;

/// Checks the files that the options name, one after the other, and writes what is found in them. If a file can't be
/// read, isn't UTF-8 or is too long, a message goes to `errors`, and the other files are still checked.
///
/// Returns an error if a write to `writer` fails.
pub fn check_files<W: Write, E: Write>(
    rt: &HostRuntime,
    options: &Options,
    writer: &mut W,
    errors: &mut E,
) -> Result<Tally, Failure>
{
    let mut tally = Tally::new();
    for path in options.paths.as_slice() {
        let outcome = unless_writing_failed(check_file(rt, options, path.as_str(), writer))?;
        say_unread(path.as_str(), &outcome, errors);
        tally = tally.with(&outcome);
    }
    Ok(tally)
}

/// Checks the file at this path, and returns whether its text has an error.
fn check_file<W: Write>(
    rt: &HostRuntime,
    options: &Options,
    path: &str,
    writer: &mut W,
) -> Result<bool, Failure>
{
    let text = read_text(rt, path)?;
    check_all(
        options.shown_form(),
        options.hidden,
        path,
        text.as_str(),
        writer,
    )
}

/// Returns the outcome, unless it is that a write failed: this becomes the error.
fn unless_writing_failed(outcome: Result<bool, Failure>) -> Result<Result<bool, Failure>, Failure>
{
    match outcome {
        Err(Failure::Write(error)) => Err(Failure::Write(error)),
        outcome => Ok(outcome),
    }
}

/// Writes why the file at this path was not read. Nothing else changes if this message cannot be written.
fn say_unread<E: Write>(
    path: &str,
    outcome: &Result<bool, Failure>,
    errors: &mut E,
) {
    if let Err(failure) = outcome {
        let _ = say(path, failure, errors);
    }
}
