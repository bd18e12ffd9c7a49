// Made from crates/lexical/src/single_quotes.rt by dev/erase: change that file, not this one.
//! Character literals and byte literals.

use crate::lexical::cursor::TextCursor;
use crate::lexical::escapes::escape;
use crate::lexical::quoted::{StringKind, suffix};
use crate::lexical::skip::one;

/// Whether a literal of the kind may have the character between single quotes as it is, without an escape.
///
/// # Contract
///
/// - `ensures`: <code>result ≡ [is_plain] kind c</code>
///
/// [is_plain]: crate::contracts#lexical.SingleQuoted.is_plain
pub fn stands_bare(c: char, kind: StringKind) -> bool
{
    match c {
        '\'' | '\\' | '\n' | '\r' | '\t' => false,
        _ => !matches!(kind, StringKind::Byte) || c.is_ascii(),
    }
}

/// Returns the cursor after one character that needs no escape.
fn bare(at: TextCursor<'_>, kind: StringKind) -> Option<TextCursor<'_>>
{
    one(at, |c| stands_bare(c, kind))
}

/// Returns the cursor after one character that needs no escape, or after a backslash and its escape.
fn unit(at: TextCursor<'_>, kind: StringKind) -> Option<TextCursor<'_>>
{
    match bare(at, kind) {
        Some(end) => Some(end),
        None => escape(at.past("\\")?, kind),
    }
}

/// Returns the cursor after the literal between single quotes at the cursor, which `front` opens, by the rules
/// `character` and `byte`.
///
/// # Contract
///
/// - `requires ascii`: <code>[IsTrue] ([all_ascii] front.now)</code>
/// - `ensures`: <code>[Reads] (rule.[single] front.now ([is_plain] kind) ([escape] kind)) at.entry
///   result</code>
///
/// [IsTrue]: crate::contracts#std.IsTrue
/// [all_ascii]: crate::contracts#lexical.Ascii.all_ascii
/// [Reads]: crate::contracts#lexical.RuleMatch.Reads
/// [single]: crate::contracts#lexical.SingleQuoted.single
/// [is_plain]: crate::contracts#lexical.SingleQuoted.is_plain
/// [escape]: crate::contracts#lexical.Quoted.escape
pub fn single<'a>(at: TextCursor<'a>, front: &str, kind: StringKind) -> Option<TextCursor<'a>>
{
    let end = unit(at.past(front)?, kind)?;
    Some(suffix(end.past("'")?))
}
