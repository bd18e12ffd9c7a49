// Made from crates/lexical/src/raw_strings.rt by dev/erase: change that file, not this one.
//! Raw strings, which have no escapes.

use crate::lexical::bytes::{Class, skip};
use crate::lexical::contents::{count_allowed, may_stand};
use crate::lexical::cursor::TextCursor;
use crate::lexical::quoted::{StringKind, suffix};
use crate::lexical::text::{before, begins};
use crate::shim::memchr::memchr2;

/// The largest number of hash signs of a raw string.
const MOST_HASHES: usize = 255;

/// Returns the hash signs at the cursor, at most 255, and the cursor after them, by the rule `raw-hashes`.
fn hashes(at: TextCursor<'_>) -> Option<(&str, TextCursor<'_>)>
{
    let end = skip(at, Class::Hash);
    let hashes = before(at.rest, end.rest);
    if hashes.len() > MOST_HASHES {
        return None;
    }
    Some((hashes, end))
}

/// Returns the cursor after all characters that a raw string may contain, at the first quote, CR or forbidden
/// character.
fn skip_plain(at: TextCursor<'_>, kind: StringKind) -> TextCursor<'_>
{
    let bytes = at.rest.as_bytes();
    let size = memchr2(b'"', b'\r', bytes).unwrap_or(bytes.len());
    at.after_bytes(count_allowed(&bytes[..size], kind))
}

/// Returns the cursor after a unit of a raw string with these hash signs, by the rule `raw-unit`.
fn raw_unit<'a>(at: TextCursor<'a>, kind: StringKind, hashes: &str) -> Option<TextCursor<'a>>
{
    let (c, after) = at.advance()?;
    if c == '"' && begins(after.rest, hashes) {
        return None;
    }
    if c == '\r' {
        return at.past("\r\n");
    }
    if may_stand(c, kind) {
        Some(after)
    } else {
        None
    }
}

/// Returns the cursor after the raw string at the cursor, which `front` opens, by the rules `raw-string`,
/// `raw-byte-string` and `raw-c-string`.
///
/// # Contract
///
/// - `requires ascii`: <code>[IsTrue] ([all_ascii] front.now)</code>
/// - `ensures`: <code>[Reads] (rule.[raw] front.now ([may_stand_raw] kind)) at.entry result</code>
///
/// [IsTrue]: crate::contracts#std.IsTrue
/// [all_ascii]: crate::contracts#lexical.Ascii.all_ascii
/// [Reads]: crate::contracts#lexical.RuleMatch.Reads
/// [raw]: crate::contracts#lexical.RawString.raw
/// [may_stand_raw]: crate::contracts#lexical.RawString.may_stand_raw
pub fn raw_string<'a>(at: TextCursor<'a>, front: &str, kind: StringKind) -> Option<TextCursor<'a>>
{
    let (hashes, quote) = hashes(at.past(front)?)?;
    let mut end = quote.past("\"")?;
    while let Some(after) = raw_unit(end, kind, hashes) {
        end = skip_plain(after, kind);
    }
    Some(suffix(end.past("\"")?.past(hashes)?))
}
