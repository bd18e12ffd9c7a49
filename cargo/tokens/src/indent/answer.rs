// Made from crates/indent/src/answer.rt by dev/erase: change that file, not this one.
//! Writes a text with its lines indented, or checks that they are.

use crate::indent::choosing::{IndentStyle, choices};
use proved_tokens::explain::{ExplainError, explain};
use crate::messages::Failure;
use proved_tokens::proc_macro2::{SourceMap, TokenStream};
use proved_tokens::relayout::{RelayoutError, relayout};
use proved_tokens::shim::io::Write;

/// Writes the text with its lines indented. Its tokens and comments stay the same, whatever the indentation is.
///
/// Returns `Fault`, which has line and column, `MapFull` or `Memory` before anything is written. Returns `Write` if a
/// write fails: a prefix of the text may have been written then.
pub fn print_text<W: Write>(
    text: &str,
    step: IndentStyle,
    writer: &mut W,
) -> Result<(), Failure>
{
    match indent(text, step) {
        Ok(indented) => {
            writer.write_all(indented.as_str().as_bytes())?;
            Ok(())
        }
        Err(failure) => Err(failure),
    }
}

/// Returns whether indenting its lines leaves the text as it is.
///
/// Returns `Fault`, `MapFull` or `Memory` as an error, for the same reasons as `print_text`.
pub fn is_indented(text: &str, step: IndentStyle) -> Result<bool, Failure>
{
    let indented = indent(text, step)?;
    Ok(indented.as_str() == text)
}

/// Returns the text with its lines indented. It finds out whether the text parses without building trees.
fn indent(text: &str, step: IndentStyle) -> Result<String, Failure>
{
    match explain(text) {
        Ok(None) => indent_parsed(text, step),
        Ok(Some(_)) => Err(fault_of(text)),
        Err(ExplainError::MapFull) => Err(Failure::MapFull),
        Err(ExplainError::Memory(_)) => Err(Failure::Memory),
    _ => unreachable!("each case is above"),
}
}

/// Returns the error for a text that doesn't parse, with its line and column. Only this needs a map.
fn fault_of(text: &str) -> Failure
{
    let mut map = SourceMap::new();
    match TokenStream::from_str(text, &mut map) {
        Ok(_) => unreachable!(),
        Err(error) => Failure::parse_failure(error, &map),
    }
}

/// Returns a text that parses with its lines indented. The only error is that memory runs out.
fn indent_parsed(text: &str, step: IndentStyle) -> Result<String, Failure>
{
    let choices = choices(text, step)?;
    match relayout(text, choices.as_slice()) {
        Ok(out) => Ok(out),
        Err(RelayoutError::Memory(_)) => Err(Failure::Memory),
        Err(RelayoutError::NoPiece) => unreachable!(),
    _ => unreachable!("each case is above"),
}
}
