// Made from crates/explain/src/letters.rt by dev/erase: change that file, not this one.
//! Why no piece begins at a letter.

use crate::explain::quotes::{SingleKind, single};
use crate::explain::reason::Reason;
use crate::explain::strings::{raw_string, string};
use crate::explain::trouble::Trouble;
use crate::lexical::parts::{StringKind, TextCursor, name};

/// Returns why no piece begins at the cursor, which is before `r#`. `inner` is after the `r#`.
fn raw_name<'a>(at: TextCursor<'a>, inner: TextCursor<'a>) -> Trouble<'a>
{
    if let Some(end) = name(inner) {
        return Trouble {
            reason: Reason::ReservedRawName,
            at,
            after: end,
        };
    }
    let Some(inside) = at.past("r") else {
        unreachable!()
    };
    raw_string(at, inside, StringKind::Plain)
}

/// Returns why no piece begins at the cursor, which is before a letter.
///
/// # Contract
///
/// - `requires letter`: <code>[first_passes] [is_ident_start] ([chars] at.rest.now) ≡ [true]</code>
/// - `requires identifier`: <code>[found_identifier] ([chars] at.rest.now) ≡ [None]</code>
/// - `requires literal`: <code>[find] [quoted_literal] ([chars] at.rest.now) ≡ [None]</code>
/// - `ensures`: <code>[IsTrouble] at.entry result</code>
///
/// [first_passes]: crate::contracts#lexical.Text.first_passes
/// [is_ident_start]: crate::contracts#lexical.Class.is_ident_start
/// [chars]: crate::contracts#std.chars
/// [true]: crate::contracts#std.true
/// [found_identifier]: crate::contracts#lexical.PieceFinder.found_identifier
/// [None]: crate::contracts#std.None
/// [find]: crate::contracts#lexical.Rule.find
/// [quoted_literal]: crate::contracts#lexical.Literal.quoted_literal
/// [IsTrouble]: crate::contracts#explain.Trouble.IsTrouble
pub fn letter(at: TextCursor<'_>) -> Trouble<'_>
{
    if let Some(inside) = at.past("b\"") {
        return string(at, inside, StringKind::Byte);
    }
    if let Some(inside) = at.past("c\"") {
        return string(at, inside, StringKind::C);
    }
    if let Some(inside) = at.past("b'") {
        return single(at, inside, SingleKind::Byte);
    }
    if let Some(inner) = at.past("r#") {
        return raw_name(at, inner);
    }
    if let Some(inside) = at.past("r") {
        return raw_string(at, inside, StringKind::Plain);
    }
    if let Some(inside) = at.past("br") {
        return raw_string(at, inside, StringKind::Byte);
    }
    let Some(inside) = at.past("cr") else {
        unreachable!()
    };
    raw_string(at, inside, StringKind::C)
}
