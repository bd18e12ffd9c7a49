// Made from crates/explain/src/raw_contents.rt by dev/erase: change that file, not this one.
//! The first error in the content of a raw string that is closed.

use crate::explain::reason::Reason;
use crate::explain::trouble::Trouble;
use crate::lexical::parts::{StringKind, TextCursor, begins};
use crate::literal_escaper::EscapeError;

/// Whether the content of a string of this kind may have the character. A CR is checked elsewhere.
fn may_stand(c: char, kind: StringKind) -> bool
{
    match kind {
        StringKind::Plain => true,
        StringKind::Byte => c.is_ascii(),
        StringKind::C => c != '\0',
    }
}

/// Returns the cursor after a unit of a raw string with these hash signs.
fn past_unit<'a>(at: TextCursor<'a>, hashes: &str, kind: StringKind) -> Option<TextCursor<'a>>
{
    let (c, after) = at.advance()?;
    if c == '"' && begins(after.rest, hashes) {
        return None;
    }
    if c == '\r' {
        return at.past("\r\n");
    }
    if may_stand(c, kind) {
        Some(after)
    } else {
        None
    }
}

/// Returns the error for a character that a raw string of this kind may not have. For a CR, the caller has checked that
/// no LF follows.
fn error_of(c: char, kind: StringKind) -> EscapeError
{
    if c == '\r' {
        return EscapeError::BareCarriageReturnInRawString;
    }
    match kind {
        StringKind::Byte => EscapeError::NonAsciiCharInByte,
        StringKind::C => EscapeError::NulInCStr,
        StringKind::Plain => unreachable!(),
    }
}

/// Returns the first error in the content of a raw string that begins at `at`. `inside` is after its letters, `quote`
/// after its hash signs, `body` after its opening quote, and `end` after all of it.
///
/// # Contract
///
/// - `requires letters`: <code>[Passes] ([Exactly] ([raw_front] kind)) at inside</code>
/// - `requires signs`: <code>(run : [Passes] ([Run] [is_hash]) inside quote) × (hashes.now ≡ run.front)</code>
/// - `requires few`: <code>[length] hashes.now ≤ 255</code>
/// - `requires ascii`: <code>[IsTrue] ([all_ascii] hashes.now)</code>
/// - `requires opens`: <code>[Passes] ([Exactly] ([codes] \"\\\"\")) quote body</code>
/// - `requires closed`: <code>[Passes] ([closed_raw_body] hashes.now) body end</code>
/// - `requires none`: <code>[find] ([raw_string] kind) ([chars] at.rest.now) ≡ [None]</code>
/// - `ensures`: <code>[IsTrouble] at.entry result</code>
///
/// [Passes]: crate::contracts#lexical.RuleMatch.Passes
/// [Exactly]: crate::contracts#lexical.Rule.Exactly
/// [raw_front]: crate::contracts#lexical.RawString.raw_front
/// [Run]: crate::contracts#lexical.Rule.Run
/// [is_hash]: crate::contracts#explain.Shapes.is_hash
/// [length]: crate::contracts#std.length
/// [IsTrue]: crate::contracts#std.IsTrue
/// [all_ascii]: crate::contracts#lexical.Ascii.all_ascii
/// [codes]: crate::contracts#std.codes
/// [closed_raw_body]: crate::contracts#explain.Shapes.closed_raw_body
/// [find]: crate::contracts#lexical.Rule.find
/// [raw_string]: crate::contracts#lexical.RawString.raw_string
/// [chars]: crate::contracts#std.chars
/// [None]: crate::contracts#std.None
/// [IsTrouble]: crate::contracts#explain.Trouble.IsTrouble
pub fn raw_content<'a>(
    at: TextCursor<'a>,
    inside: TextCursor<'a>,
    quote: TextCursor<'a>,
    body: TextCursor<'a>,
    end: TextCursor<'a>,
    hashes: &str,
    kind: StringKind,
) -> Trouble<'a>
{
    let mut place = body;
    while let Some(after) = past_unit(place, hashes, kind) {
        place = after;
    }
    let Some((c, after)) = place.advance() else {
        unreachable!()
    };
    Trouble {
        reason: Reason::Content(error_of(c, kind)),
        at: place,
        after,
    }
}
