//! `tokens highlight` writes source text with its pieces marked: as a page for a browser, or with a terminal's colours.

use super::conclude;
use crate::highlight::answer::write_marked;
use crate::highlight::format::{request_of, Format};
use crate::messages::{read_text, Failure};
use proved_tokens::shim::process::HostRuntime;
use std::io::{BufWriter, Write};

/// Does what the words ask for, and answers the status.
pub fn run(rt: &HostRuntime, words: &[String], errors: &mut dyn Write) -> Result<u8, Failure> {
    let (format, path) = request_of(words).ok_or(Failure::Usage(""))?;
    Ok(conclude(path, write(rt, format, path), errors))
}

// Writes the text at the path with its pieces marked.
fn write(rt: &HostRuntime, format: Format, path: &str) -> Result<(), Failure> {
    let text = read_text(rt, path)?;
    let mut writer = BufWriter::new(rt.stdout());
    write_marked(format, text.as_str(), &mut writer)?;
    Ok(writer.flush()?)
}
