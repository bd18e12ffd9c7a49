// Made from crates/lexical/src/quoted.rt by dev/erase: change that file, not this one.
//! Strings with escapes.

use crate::lexical::contents::{count_allowed, may_stand};
use crate::lexical::cursor::TextCursor;
use crate::lexical::escapes::escape;
use crate::lexical::identifiers::name;
use crate::lexical::skip::one;
use crate::shim::memchr::memchr3;

/// What a string consists of.
#[derive(Clone, Copy)]
pub enum StringKind {
    /// Characters: a string.
    Plain,
    /// Bytes: a byte string. Its text is ASCII; other bytes need escapes.
    Byte,
    /// Bytes other than zero: a C string.
    C,
}

/// Returns the cursor after the suffix of a literal, by the rule `suffix`. A literal without a suffix leaves the cursor
/// where it is.
///
/// # Contract
///
/// - `ensures`: <code>[Passes] rule.[suffix] at.entry result</code>
///
/// [Passes]: crate::contracts#lexical.RuleMatch.Passes
/// [suffix]: crate::contracts#lexical.Quoted.suffix
pub fn suffix(at: TextCursor<'_>) -> TextCursor<'_>
{
    match name(at) {
        Some(end) => end,
        None => at,
    }
}

/// Whether a string of the kind may contain the character as it is, without an escape.
fn stands_for_itself(c: char, kind: StringKind) -> bool
{
    match c {
        '"' | '\\' | '\r' => false,
        _ => may_stand(c, kind),
    }
}

/// Returns the cursor after one character that needs no escape.
fn plain(at: TextCursor<'_>, kind: StringKind) -> Option<TextCursor<'_>>
{
    one(at, |c| stands_for_itself(c, kind))
}

/// Returns the cursor after all characters that need no escape, at the first quote, backslash, CR or forbidden
/// character.
fn skip_plain(at: TextCursor<'_>, kind: StringKind) -> TextCursor<'_>
{
    let bytes = at.rest.as_bytes();
    let size = memchr3(b'"', b'\\', b'\r', bytes).unwrap_or(bytes.len());
    at.after_bytes(count_allowed(&bytes[..size], kind))
}

/// Returns the cursor after what may follow a backslash in a string.
fn escape_or_line_end(at: TextCursor<'_>, kind: StringKind) -> Option<TextCursor<'_>>
{
    if let Some(end) = at.past("\n") {
        return Some(end);
    }
    match at.past("\r\n") {
        Some(end) => Some(end),
        None => escape(at, kind),
    }
}

/// Returns the cursor after a unit of a string, by the rules `string-unit`, `byte-string-unit` and `c-string-unit`.
fn unit(at: TextCursor<'_>, kind: StringKind) -> Option<TextCursor<'_>>
{
    if let Some(escape) = at.past("\\") {
        return escape_or_line_end(escape, kind);
    }
    match plain(at, kind) {
        Some(end) => Some(end),
        None => at.past("\r\n"),
    }
}

/// Returns the cursor after the string at the cursor, which `front` opens, by the rules `string`, `byte-string` and
/// `c-string`.
///
/// # Contract
///
/// - `requires ascii`: <code>[IsTrue] ([all_ascii] front.now)</code>
/// - `ensures`: <code>[Reads] ([Then] ([Exactly] front.now) (rule.[body] (rule.[unit] kind) ([codes]
///   \"\\\"\"))) at.entry result</code>
///
/// [IsTrue]: crate::contracts#std.IsTrue
/// [all_ascii]: crate::contracts#lexical.Ascii.all_ascii
/// [Reads]: crate::contracts#lexical.RuleMatch.Reads
/// [Then]: crate::contracts#lexical.Rule.Then
/// [Exactly]: crate::contracts#lexical.Rule.Exactly
/// [body]: crate::contracts#lexical.Quoted.body
/// [unit]: crate::contracts#lexical.Quoted.unit
/// [codes]: crate::contracts#std.codes
pub fn string<'a>(at: TextCursor<'a>, front: &str, kind: StringKind) -> Option<TextCursor<'a>>
{
    let inside = at.past(front)?;
    let mut end = skip_plain(inside, kind);
    while let Some(after) = unit(end, kind) {
        end = skip_plain(after, kind);
    }
    let closed = end.past("\"")?;
    Some(suffix(closed))
}
