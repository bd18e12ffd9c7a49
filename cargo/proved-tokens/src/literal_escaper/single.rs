// Made from crates/literal_escaper/src/single.rt by dev/erase: change that file, not this one.
//! Reads contents that must be one unit.

use crate::literal_escaper::classes::{ContentClass, holds};
use crate::literal_escaper::content_cursor::ContentCursor;
use crate::literal_escaper::errors::EscapeError;
use crate::literal_escaper::escape::escape;
use crate::literal_escaper::kind::Unescape;

/// Returns the unit of a character or of the escape that it begins, or an error, and the cursor after it.
fn first_unit<K: Unescape>(
    c: char,
    after: ContentCursor<'_>,
) -> (Result<K::Unit, EscapeError>, ContentCursor<'_>)
{
    if !holds(ContentClass::CharSpecial, c) {
        return (K::of_char(c), after);
    }
    match c {
        '\\' => escape::<K>(after),
        '\r' => (Err(EscapeError::BareCarriageReturn), after),
        _ => (Err(EscapeError::EscapeOnlyChar), after),
    }
}

/// Returns the one unit of the content, by the rule `single-item`, or an error, and the cursor after what was read.
///
/// # Contract
///
/// - `ensures`: <code>[Gives] ([single] K.kind ([text_at] at.entry)) at.entry result</code>
///
/// [Gives]: crate::contracts#literal_escaper.Unescaping.Gives
/// [single]: crate::contracts#literal_escaper.Single.single
/// [text_at]: crate::contracts#literal_escaper.Unescaping.text_at
pub fn unescape_single<K: Unescape>(
    at: ContentCursor<'_>,
) -> (Result<K::Unit, EscapeError>, ContentCursor<'_>)
{
    let Some((c, after)) = at.advance() else {
        return (Err(EscapeError::ZeroChars), at);
    };
    let (unit, end) = first_unit::<K>(c, after);
    if unit.is_err() {
        return (unit, end);
    }
    match end.advance() {
        None => (unit, end),
        Some((_, past)) => (Err(EscapeError::MoreThanOneChar), past),
    }
}
