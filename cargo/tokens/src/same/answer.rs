// Made from crates/same/src/answer.rt by dev/erase: change that file, not this one.
//! The result of comparing two texts, and the line that is written for it.

use crate::same::comparing::difference;
use crate::same::place::place_at;
use proved_tokens::explain::{ExplainError, explain};
use crate::messages::Failure;
use proved_tokens::proc_macro2::LineColumn;
use proved_tokens::shim::io;
use proved_tokens::shim::io::Write;

/// A text, and the path from which it was read.
#[derive(Clone, Copy)]
pub struct Source<'a> {
    /// The path.
    pub path: &'a str,
    /// The text.
    pub text: &'a str,
}

/// Returns whether two texts have the same tokens and, if `comments` is true, the same comments. If they don't, it
/// writes where the first difference is in both.
///
/// Returns `Memory` if memory runs out, and `Write` if the write fails.
pub fn compare<W: Write>(
    comments: bool,
    first: Source<'_>,
    second: Source<'_>,
    writer: &mut W,
) -> Result<bool, Failure>
{
    match difference(comments, first.text, second.text)? {
        None => Ok(true),
        Some((one, other)) => {
            let at = place_at(first.text, first.text.len().saturating_sub(one.len()));
            let other_at = place_at(second.text, second.text.len().saturating_sub(other.len()));
            write_places(first.path, at, second.path, other_at, writer)?;
            Ok(false)
        }
    }
}

/// Writes where the first difference is in both texts. Lines and columns count from 1.
fn write_places<W: Write>(
    path: &str,
    at: LineColumn,
    other: &str,
    other_at: LineColumn,
    writer: &mut W,
) -> io::Result<()>
{
    let line = at.line;
    // The columns may be the largest `usize`, so the sums need more bits.
    let column = at.column as u128 + 1;
    let other_line = other_at.line;
    let other_column = other_at.column as u128 + 1;
    writeln!(
        writer,
        "{path}:{line}:{column}: differs from {other}:{other_line}:{other_column}"
    )
}

/// Checks that a text parses.
///
/// Returns `Fault` with the line and column of the part that is wrong if the text doesn't parse, `MapFull` if it is too
/// long, and `Memory` if memory runs out.
pub fn check_text(text: &str) -> Result<(), Failure> {
    match explain(text) {
        Ok(None) => Ok(()),
        Ok(Some(explained)) => Err(Failure::Fault(place_at(text, explained.at.start))),
        Err(ExplainError::MapFull) => Err(Failure::MapFull),
        Err(ExplainError::Memory(_)) => Err(Failure::Memory),
    _ => unreachable!("each case is above"),
}
}
