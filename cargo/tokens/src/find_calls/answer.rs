// Made from crates/find_calls/src/answer.rt by dev/erase: change that file, not this one.
//! What the program writes for a text, and its status.

use crate::find_calls::calls::calls;
use proved_tokens::shim::memchr::memmem;
use crate::messages::Failure;
use proved_tokens::pm_span::Span;
use proved_tokens::pm_span::parts::{add_file, fits};
use proved_tokens::proc_macro2::SourceMap;
use proved_tokens::shim::io;
use proved_tokens::shim::io::Write;
use proved_tokens::token_buffer::{BufferError, TokenBuffer};

/// Writes a line `PATH:L:C` for each call of this name in the text, in reading order, and answers whether there are
/// any. A text in which the name's bytes don't stand has none.
///
/// Fails with `Fault`, which has line and column, and `MapFull` before anything is written, and with `Memory` and
/// `Write`; then a beginning of the lines stands. Of ` f(1)` at the path `a.rs` and the name `f` the line is
/// `a.rs:1:2`.
pub fn print_calls<W: Write>(
    path: &str,
    name: &str,
    text: &str,
    writer: &mut W,
) -> Result<bool, Failure>
{
    if memmem::find(text.as_bytes(), name.as_bytes()).is_none() {
        return Ok(false);
    }
    let mut map = SourceMap::new();
    if fits(&map, text).is_none() {
        return Err(Failure::MapFull);
    }
    add_file(&mut map, text)?;
    let buffer = match TokenBuffer::new(text) {
        Ok(buffer) => buffer,
        Err(BufferError::TooLong) => return Err(Failure::MapFull),
        Err(BufferError::Parse(error)) => return Err(Failure::parse_failure(error, &map)),
    _ => unreachable!("each case is above"),
};
    let spans = calls(name, buffer.begin())?;
    print_lines(path, spans.as_slice(), &map, writer)?;
    Ok(!spans.is_empty())
}

/// Writes the lines of calls whose names have these spans, which the map holds.
fn print_lines<W: Write>(path: &str, spans: &[Span], map: &SourceMap, to: &mut W) -> io::Result<()>
{
    for span in spans {
        let start = span.start(map);
        // As wide as the sum needs.
        let column = start.column as u128 + 1;
        writeln!(to, "{path}:{}:{column}", start.line)?;
    }
    Ok(())
}

/// The status of the program: 2 where a file failed, else 0 where a call was found, and 1 where none was.
pub fn status(found: bool, failed: bool) -> u8
{
    if failed { 2 } else { u8::from(!found) }
}
