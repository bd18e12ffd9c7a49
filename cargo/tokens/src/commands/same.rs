//! `tokens same` says whether two files have the same tokens, with `--comments` the same comments too.

use crate::messages::{read_text, say, Failure};
use crate::same::answer::{check_text, compare, Source};
use proved_tokens::shim::process::HostRuntime;
use std::io::Write;

/// Compares what the words ask for, and answers the status.
pub fn run(rt: &HostRuntime, words: &[String], errors: &mut dyn Write) -> Result<u8, Failure> {
    match words {
        [first, second] if first.as_str() != "--comments" => {
            compare_files(rt, false, first.as_str(), second.as_str(), errors)
        }
        [option, first, second] if option.as_str() == "--comments" => {
            compare_files(rt, true, first.as_str(), second.as_str(), errors)
        }
        _ => Err(Failure::Usage("")),
    }
}

// Compares the files at these paths, and answers the status.
fn compare_files(
    rt: &HostRuntime,
    comments: bool,
    first: &str,
    second: &str,
    errors: &mut dyn Write,
) -> Result<u8, Failure> {
    let Some(one) = text_at(rt, first, errors) else { return Ok(2) };
    let Some(other) = text_at(rt, second, errors) else { return Ok(2) };
    let one = Source { path: first, text: one.as_str() };
    let other = Source { path: second, text: other.as_str() };
    Ok(if compare(comments, one, other, &mut rt.stdout())? { 0 } else { 1 })
}

// The text of the file at this path. Where it isn't had or has a fault, a line says so.
fn text_at(rt: &HostRuntime, path: &str, mut errors: &mut dyn Write) -> Option<String> {
    let read = read_text(rt, path).and_then(|text| check_text(text.as_str()).map(|()| text));
    read.map_err(|failure| say(path, &failure, &mut errors)).ok()
}
