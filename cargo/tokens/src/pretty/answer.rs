// Made from crates/pretty/src/answer.rt by dev/erase: change that file, not this one.
//! Writes the tokens of a text so that people read them well.

use crate::pretty::comments::count_comments;
use crate::pretty::script::{split_script, with_line};
use crate::messages::Failure;
use proved_tokens::pretty_printer::to_pretty_string;
use proved_tokens::proc_macro2::{SourceMap, TokenStream};
use proved_tokens::quoting::QuoteError;
use proved_tokens::relayout::{RelayoutError, with_any_doc_comments};
use proved_tokens::shim::io::Write;

/// Writes the tokens of the text, in a layout that reads back to them, up to the spelling of doc literals. Doc comments
/// replace the doc attributes whose texts they can hold. The line `#!..` at the start of a script comes first.
///
/// Returns how many plain comments the text has, which are left out. If it has some and `deny` is true, nothing is
/// written.
///
/// Returns `Fault`, which has line and column, `MapFull` or `Memory` before anything is written. Returns `Write` if a
/// write fails: a prefix of the text may have been written then.
pub fn print_text<W: Write>(
    text: &str,
    deny: bool,
    writer: &mut W,
) -> Result<usize, Failure>
{
    let (line, code) = split_script(text);
    let mut map = SourceMap::new();
    match TokenStream::from_str(code, &mut map) {
        Ok(stream) => {
            let count = count_comments(code);
            if deny && 0 < count {
                return Ok(count);
            }
            match print_stream(line, &stream, writer) {
                Ok(()) => Ok(count),
                Err(failure) => Err(failure),
            }
        }
        Err(error) => Err(Failure::parse_failure(error, &map)),
    }
}

/// Writes a well-spaced stream after the first line of a script, if there is one.
fn print_stream<W: Write>(
    line: &str,
    stream: &TokenStream,
    writer: &mut W,
) -> Result<(), Failure>
{
    let pretty = pretty_text(stream)?;
    let whole = with_line(line, pretty)?;
    writer.write_all(whole.as_str().as_bytes())?;
    Ok(())
}

/// Returns the pretty text of a well-spaced stream. The only error is that memory runs out.
fn pretty_text(stream: &TokenStream) -> Result<String, Failure>
{
    let pretty = match to_pretty_string(stream) {
        Ok(pretty) => pretty,
        Err(QuoteError::Memory(_)) => return Err(Failure::Memory),
        Err(QuoteError::NoneGroup | QuoteError::LoneQuote) => unreachable!(),
    _ => unreachable!("each case is above"),
};
    match with_any_doc_comments(pretty.as_str()) {
        Ok(text) => Ok(text),
        Err(RelayoutError::Memory(_)) => Err(Failure::Memory),
        Err(RelayoutError::NoPiece) => unreachable!(),
    _ => unreachable!("each case is above"),
}
}
