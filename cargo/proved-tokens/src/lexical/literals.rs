// Made from crates/lexical/src/literals.rt by dev/erase: change that file, not this one.
//! Literals.

use crate::lexical::cursor::TextCursor;
use crate::lexical::numbers::number;
use crate::lexical::quoted::{StringKind, string};
use crate::lexical::raw_strings::raw_string;
use crate::lexical::single_quotes::single;

/// Returns the cursor after the literal between quotes at the cursor, by the rule `quoted-literal`.
///
/// # Contract
///
/// - `ensures`: <code>[Reads] rule.[quoted_literal] at.entry result</code>
///
/// [Reads]: crate::contracts#lexical.RuleMatch.Reads
/// [quoted_literal]: crate::contracts#lexical.Literal.quoted_literal
#[inline(never)]
pub fn skip_quoted(at: TextCursor<'_>) -> Option<TextCursor<'_>>
{
    if let Some(end) = any_string(at, "\"", "r", StringKind::Plain) {
        return Some(end);
    }
    if let Some(end) = single(at, "'", StringKind::Plain) {
        return Some(end);
    }
    if let Some(end) = any_string(at, "b\"", "br", StringKind::Byte) {
        return Some(end);
    }
    match single(at, "b'", StringKind::Byte) {
        Some(end) => Some(end),
        None => any_string(at, "c\"", "cr", StringKind::C),
    }
}

/// Returns the cursor after the string at the cursor. `front` opens it if it has escapes, and `raw_front` opens it if
/// it is raw.
fn any_string<'a>(
    at: TextCursor<'a>,
    front: &str,
    raw_front: &str,
    kind: StringKind,
) -> Option<TextCursor<'a>>
{
    match string(at, front, kind) {
        Some(end) => Some(end),
        None => raw_string(at, raw_front, kind),
    }
}

/// Returns the cursor after the literal at the cursor, by the rule `literal`.
///
/// # Contract
///
/// - `ensures`: <code>[Reads] rule.[literal] at.entry result</code>
///
/// [Reads]: crate::contracts#lexical.RuleMatch.Reads
/// [literal]: crate::contracts#lexical.Literal.literal
pub fn literal(at: TextCursor<'_>) -> Option<TextCursor<'_>>
{
    match skip_quoted(at) {
        Some(end) => Some(end),
        None => number(at),
    }
}
