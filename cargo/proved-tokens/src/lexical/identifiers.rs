// Made from crates/lexical/src/identifiers.rt by dev/erase: change that file, not this one.
//! Names and identifiers.

use crate::lexical::bytes::{Class, one, skip};
use crate::lexical::cursor::TextCursor;
use crate::lexical::piece::PieceKind;
use crate::lexical::text::{before, begins, is_text};

/// Returns the cursor after the name at the cursor, by the rule `name`.
///
/// # Contract
///
/// - `ensures`: <code>[Reads] rule.[name] at.entry result</code>
///
/// [Reads]: crate::contracts#lexical.RuleMatch.Reads
/// [name]: crate::contracts#lexical.Identifier.name
pub fn name(at: TextCursor<'_>) -> Option<TextCursor<'_>>
{
    let after = one(at, Class::IdentifierStart)?;
    Some(skip(after, Class::IdentifierContinue))
}

/// Whether the text begins like a literal that has letters before its quote, by the rule `reserved-prefix`. `first` is
/// its first character.
#[cfg_attr(not(debug_assertions), inline(always))]
fn begins_literal(text: &str, first: char) -> bool
{
    match first {
        'r' => begins(text, "r\"") || begins(text, "r#\"") || begins(text, "r##"),
        'b' => begins(text, "b\"")
            || begins(text, "b'")
            || begins(text, "br\"")
            || begins(text, "br#"),
        'c' => begins(text, "c\"") || begins(text, "cr\"") || begins(text, "cr#"),
        _ => false,
    }
}

/// Whether a raw identifier must not have the name, by the rule `raw-reserved`: `_`, `super`, `self`, `Self` and
/// `crate`.
///
/// # Contract
///
/// - `ensures`: <code>result ≡ [reserved] ([chars] name.now)</code>
///
/// [reserved]: crate::contracts#lexical.Identifier.is_reserved
/// [chars]: crate::contracts#std.chars
pub fn is_reserved(name: &str) -> bool
{
    is_text(name, "_")
        || is_text(name, "super")
        || is_text(name, "self")
        || is_text(name, "Self")
        || is_text(name, "crate")
}

/// Returns the cursor after the name of a raw identifier. The cursor `at` is after its `r#`.
///
/// # Contract
///
/// - `ensures`: <code>[Reads] rule.[raw_name] at.entry result</code>
///
/// [Reads]: crate::contracts#lexical.RuleMatch.Reads
/// [raw_name]: crate::contracts#lexical.Identifier.raw_name
#[inline(never)]
pub fn raw_name(at: TextCursor<'_>) -> Option<TextCursor<'_>>
{
    let end = name(at)?;
    if is_reserved(before(at.rest, end.rest)) {
        return None;
    }
    Some(end)
}

/// Returns the cursor after the identifier at the cursor, even if a literal begins there. `raw` says whether the text
/// there begins with `r#`.
///
/// # Contract
///
/// - `requires`: <code>[begins_with] ([codes] \"r#\") ([chars] at.rest.now) ≡ raw</code>
/// - `ensures`: <code>[Reads] (rule.[any_identifier] raw) at.entry result</code>
///
/// [begins_with]: crate::contracts#lexical.Text.begins_with
/// [codes]: crate::contracts#std.codes
/// [chars]: crate::contracts#std.chars
/// [Reads]: crate::contracts#lexical.RuleMatch.Reads
/// [any_identifier]: crate::contracts#lexical.Identifier.any_identifier
pub fn any_identifier(at: TextCursor<'_>, raw: bool) -> Option<TextCursor<'_>>
{
    if raw {
        raw_name(at.past("r#")?)
    } else {
        name(at)
    }
}

/// Returns the kind of the identifier at the cursor, by the rule `identifier`, and the cursor after it. `first` is the
/// character at the cursor, and `after` is the cursor after that character.
///
/// # Contract
///
/// - `requires starts`: <code>[IsTrue] ([is_ident_start] first)</code>
/// - `requires split`: <code>[chars] at.rest.now ≡ first ∷ [chars] after.rest.now</code>
/// - `requires one`: <code>after.chars_before ≡ at.chars_before + 1</code>
/// - `ensures`: <code>[Answers] ([found_identifier] ([chars] at.entry.rest.now)) at.entry result</code>
///
/// [IsTrue]: crate::contracts#std.IsTrue
/// [is_ident_start]: crate::contracts#lexical.Class.is_ident_start
/// [chars]: crate::contracts#std.chars
/// [Answers]: crate::contracts#lexical.PieceStep.Answers
/// [found_identifier]: crate::contracts#lexical.PieceFinder.found_identifier
#[cfg_attr(not(debug_assertions), inline(always))]
pub fn identifier<'a>(
    at: TextCursor<'a>,
    first: char,
    after: TextCursor<'a>,
) -> Option<(PieceKind<'a>, TextCursor<'a>)>
{
    if begins_literal(at.rest, first) {
        return None;
    }
    if let Some(inside) = at.past("r#") {
        let end = raw_name(inside)?;
        let kind = PieceKind::Name {
            raw: true,
            name: before(inside.rest, end.rest),
        };
        return Some((kind, end));
    }
    let end = skip(after, Class::IdentifierContinue);
    let kind = PieceKind::Name {
        raw: false,
        name: before(at.rest, end.rest),
    };
    Some((kind, end))
}
