// Made from crates/highlight/src/answer.rt by dev/erase: change that file, not this one.
//! Writes a text with its pieces marked.

use crate::highlight::format::Format;
use crate::highlight::marking::mark_pieces;
use crate::highlight::page::frame_of;
use crate::messages::Failure;
use proved_tokens::shim::io::Write;

/// Writes the text with its pieces marked; for a page, between the page's head and foot. The marked text is complete in
/// memory before the first byte is written.
///
/// The output depends only on the format, the pieces of the text, and the reason why what follows them doesn't parse.
/// Without tags and with escapes undone, the output is the text; for a terminal this holds if the text has no ESC.
/// After an error a prefix of the output may have been written.
pub fn write_marked<W: Write>(
    format: Format,
    text: &str,
    writer: &mut W,
) -> Result<(), Failure>
{
    let body = mark_pieces(format, text)?;
    let frame = frame_of(format);
    Ok(write!(writer, "{}{body}{}", frame.head, frame.foot)?)
}
