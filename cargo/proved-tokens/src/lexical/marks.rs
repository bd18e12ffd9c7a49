// Made from crates/lexical/src/marks.rt by dev/erase: change that file, not this one.
//! Punctuation marks and lone quotes.

use crate::lexical::bytes::{Class, holds};
use crate::lexical::cursor::TextCursor;
use crate::lexical::identifiers::any_identifier;
use crate::lexical::piece::PieceKind;
use crate::lexical::text::{begins, split_first};

/// Whether the character is one of the 22 marks, by the rule `marks`.
///
/// # Contract
///
/// - `ensures`: <code>result ≡ [is_one_of_marks] c</code>
///
/// [is_one_of_marks]: crate::contracts#lexical.Mark.is_mark
#[cfg_attr(not(debug_assertions), inline(always))]
pub fn is_mark(c: char) -> bool
{
    holds(Class::Mark, c)
}

/// Whether the text begins with a comment, `//` or `/*`.
///
/// # Contract
///
/// - `ensures`: <code>result ≡ [begins_any] [comment_fronts] ([chars] text.now)</code>
///
/// [begins_any]: crate::contracts#lexical.Text.begins_any
/// [comment_fronts]: crate::contracts#lexical.Mark.comment_fronts
/// [chars]: crate::contracts#std.chars
#[cfg_attr(not(debug_assertions), inline(always))]
pub fn begins_comment(text: &str) -> bool
{
    begins(text, "//") || begins(text, "/*")
}

/// Returns the kind of a mark that `rest` follows, by the rules `mark` and `joint`.
///
/// # Contract
///
/// - `ensures`: <code>result ≡ kinds.Mark ([joint_before] ([chars] rest.now)) mark</code>
///
/// [joint_before]: crate::contracts#lexical.Mark.joint_before
/// [chars]: crate::contracts#std.chars
#[cfg_attr(not(debug_assertions), inline(always))]
pub fn mark<'a>(mark: char, rest: &str) -> PieceKind<'a>
{
    let joint = match split_first(rest) {
        Some((next, _)) => is_mark(next) && !begins_comment(rest),
        None => false,
    };
    PieceKind::Mark { joint, mark }
}

/// Whether a `'` may come right before an identifier that ends at the cursor. It may not if a `'` follows the
/// identifier, or if a `#` follows and the identifier is not raw.
fn is_unbarred(end: TextCursor<'_>, raw: bool) -> bool
{
    match end.advance() {
        Some((next, _)) => next != '\'' && (raw || next != '#'),
        None => true,
    }
}

/// Whether a lone quote may come right before the cursor, by the rule `lone-quote`.
///
/// # Contract
///
/// - `ensures`: <code>result ≡ [follows] ([chars] at.entry.rest.now)</code>
///
/// [follows]: crate::contracts#lexical.Mark.follows_quote
/// [chars]: crate::contracts#std.chars
#[inline(never)]
pub fn follows_quote(at: TextCursor<'_>) -> bool
{
    let raw = begins(at.rest, "r#");
    match any_identifier(at, raw) {
        Some(end) => is_unbarred(end, raw),
        None => false,
    }
}
