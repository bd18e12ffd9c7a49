// Made from crates/explain/src/numbers.rt by dev/erase: change that file, not this one.
//! Why no number begins at a digit.

use crate::explain::reason::Reason;
use crate::explain::trouble::Trouble;
use crate::lexical::parts::{Base, Class, TextCursor, one, skip};

/// Returns the cursor after a character that may not follow a number.
fn past_bad_end(end: TextCursor<'_>) -> TextCursor<'_>
{
    let Some((_, after)) = end.advance() else {
        unreachable!()
    };
    after
}

/// Returns why no number of this base begins at the cursor. `inside` is after the prefix of the base.
fn no_based_number<'a>(at: TextCursor<'a>, inside: TextCursor<'a>, base: Base) -> Trouble<'a>
{
    let start = skip(inside, Class::Underscore);
    match one(start, Class::DigitOf(base)) {
        Some(first) => {
            let end = skip(first, Class::DigitOrUnderscoreOf(base));
            match one(end, Class::Digit) {
                Some(after) => Trouble {
                    reason: Reason::BadDigit,
                    at: end,
                    after,
                },
                None => Trouble {
                    reason: Reason::BadNumberEnd,
                    at: end,
                    after: past_bad_end(end),
                },
            }
        }
        None => match one(start, Class::Digit) {
            Some(after) => Trouble {
                reason: Reason::BadDigit,
                at: start,
                after,
            },
            None => Trouble {
                reason: Reason::NoDigits,
                at,
                after: start,
            },
        },
    }
}

/// Returns why no number begins at the cursor, which is before a digit.
///
/// # Contract
///
/// - `requires digit`: <code>[first_passes] [is_ascii_digit] ([chars] at.rest.now) ≡ [true]</code>
/// - `requires none`: <code>[find] rule.[number] ([chars] at.rest.now) ≡ [None]</code>
/// - `ensures`: <code>[IsTrouble] at.entry result</code>
///
/// [first_passes]: crate::contracts#lexical.Text.first_passes
/// [is_ascii_digit]: crate::contracts#std.is_ascii_digit
/// [chars]: crate::contracts#std.chars
/// [true]: crate::contracts#std.true
/// [find]: crate::contracts#lexical.Rule.find
/// [number]: crate::contracts#lexical.Number.number
/// [None]: crate::contracts#std.None
/// [IsTrouble]: crate::contracts#explain.Trouble.IsTrouble
pub fn number(at: TextCursor<'_>) -> Trouble<'_>
{
    if let Some(inside) = at.past("0x") {
        return no_based_number(at, inside, Base::Hexadecimal);
    }
    if let Some(inside) = at.past("0o") {
        return no_based_number(at, inside, Base::Octal);
    }
    if let Some(inside) = at.past("0b") {
        return no_based_number(at, inside, Base::Binary);
    }
    let Some(first) = one(at, Class::Digit) else {
        unreachable!()
    };
    let end = skip(first, Class::DigitOrUnderscore);
    Trouble {
        reason: Reason::BadNumberEnd,
        at: end,
        after: past_bad_end(end),
    }
}
