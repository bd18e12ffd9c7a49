// Made from crates/explain/src/single_contents.rt by dev/erase: change that file, not this one.
//! The first error in the content of a character or byte literal that is closed.

use crate::explain::contents::{content, faulty};
use crate::explain::quotes::SingleKind;
use crate::explain::reason::Reason;
use crate::explain::trouble::Trouble;
use crate::lexical::parts::TextCursor;
use crate::literal_escaper::{EscapeError, Mode, check_for_errors};

/// Returns the escaper's mode for this kind of literal.
fn mode_of(kind: SingleKind) -> Mode
{
    match kind {
        SingleKind::Character => Mode::Char,
        SingleKind::Byte => Mode::Byte,
    }
}

/// Returns the error in the content, after the number of bytes that were read for it. Returns `None` if there is no
/// error.
fn fault_of(content: &str, kind: SingleKind) -> Option<(usize, EscapeError)>
{
    let (range, error) = check_for_errors(content, mode_of(kind)).next()?;
    Some((range.end, error))
}

/// Whether the whole literal is wrong.
fn is_of_literal(error: &EscapeError) -> bool
{
    matches!(error, EscapeError::ZeroChars | EscapeError::MoreThanOneChar)
}

/// Returns the first error in the content of a character or byte literal that begins at `at`. Its content begins at
/// `inside`, and `end` is after its closing quote.
///
/// # Contract
///
/// - `requires opens`: <code>[Passes] ([Exactly] ([single_front] kind)) at inside</code>
/// - `requires closed`: <code>(past : [IsPast] at end) × [Stands] [closed_character] past.part ([chars]
///   end.rest.now)</code>
/// - `requires closes`: <code>[IsInside] [single_quote] inside end</code>
/// - `requires none`: <code>[find] ([single_rule] kind) ([chars] at.rest.now) ≡ [None]</code>
/// - `ensures`: <code>[IsTrouble] at.entry result</code>
///
/// [Passes]: crate::contracts#lexical.RuleMatch.Passes
/// [Exactly]: crate::contracts#lexical.Rule.Exactly
/// [single_front]: crate::contracts#explain.Shapes.single_front
/// [IsPast]: crate::contracts#explain.Walk.IsPast
/// [Stands]: crate::contracts#lexical.Rule.Stands
/// [closed_character]: crate::contracts#explain.Shapes.closed_character
/// [chars]: crate::contracts#std.chars
/// [IsInside]: crate::contracts#explain.Walk.IsInside
/// [single_quote]: crate::contracts#lexical.Character.single_quote
/// [find]: crate::contracts#lexical.Rule.find
/// [single_rule]: crate::contracts#explain.Shapes.single_rule
/// [None]: crate::contracts#std.None
/// [IsTrouble]: crate::contracts#explain.Trouble.IsTrouble
pub fn single_content<'a>(
    at: TextCursor<'a>,
    inside: TextCursor<'a>,
    end: TextCursor<'a>,
    kind: SingleKind,
) -> Trouble<'a>
{
    match fault_of(content(inside, end), kind) {
        Some((size, error)) => {
            if is_of_literal(&error) {
                return Trouble {
                    reason: Reason::Content(error),
                    at,
                    after: end,
                };
            }
            faulty(inside, inside.after_bytes(size), error)
        }
        None => unreachable!(),
    }
}
