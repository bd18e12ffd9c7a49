// Made from crates/lexical/src/numbers.rt by dev/erase: change that file, not this one.
//! Numbers, read by their characters.

use crate::lexical::bytes::{Base, Class, is_next, one, skip};
use crate::lexical::cursor::TextCursor;
use crate::lexical::quoted::suffix;
use crate::lexical::text::begins;

/// Returns the cursor after the digits at the cursor, by the rule `digits`.
fn digits(at: TextCursor<'_>) -> Option<TextCursor<'_>>
{
    let after = one(at, Class::Digit)?;
    Some(skip(after, Class::DigitOrUnderscore))
}

/// Returns the cursor after the suffix of a number, by the rule `number-end`.
fn end(at: TextCursor<'_>) -> Option<TextCursor<'_>>
{
    let end = suffix(at);
    if is_next(end, Class::IdentifierContinue) {
        None
    } else {
        Some(end)
    }
}

/// Returns the cursor after the dot of a number, by the rule `dot`.
fn dot(at: TextCursor<'_>) -> Option<TextCursor<'_>>
{
    let end = at.past(".")?;
    if is_next(end, Class::BarsDot) {
        None
    } else {
        Some(end)
    }
}

/// Returns the cursor after the exponent at the cursor, by the rule `exponent`.
fn exponent(at: TextCursor<'_>) -> Option<TextCursor<'_>>
{
    let letter = one(at, Class::ExponentLetter)?;
    let sign = skip(letter, Class::Underscore);
    let after = match one(sign, Class::Sign) {
        Some(after) => after,
        None => sign,
    };
    digits(skip(after, Class::Underscore))
}

/// Returns the cursor after a number's dot and everything that follows the dot in the number.
fn fraction(at: TextCursor<'_>) -> Option<TextCursor<'_>>
{
    let after = skip(dot(at)?, Class::DigitOrUnderscore);
    match exponent(after) {
        Some(after) => end(after),
        None => end(after),
    }
}

/// Returns the cursor after the part that makes a float of the digits before it.
fn float_tail(at: TextCursor<'_>) -> Option<TextCursor<'_>>
{
    match fraction(at) {
        Some(end) => Some(end),
        None => end(exponent(at)?),
    }
}

/// Returns the cursor after a number that begins with no prefix of a base.
fn decimal(at: TextCursor<'_>) -> Option<TextCursor<'_>>
{
    let after = digits(at)?;
    match float_tail(after) {
        Some(end) => Some(end),
        None => end(after),
    }
}

/// Returns the cursor after the digits of this base, by the rule `base-digits`. A digit that is too large for the base
/// must not follow.
fn digits_in(at: TextCursor<'_>, base: Base) -> Option<TextCursor<'_>>
{
    let first = one(skip(at, Class::Underscore), Class::DigitOf(base))?;
    let end = skip(first, Class::DigitOrUnderscoreOf(base));
    if is_next(end, Class::Digit) {
        None
    } else {
        Some(end)
    }
}

/// Returns the cursor after the prefix of a base and its digits.
fn prefix_and_digits<'a>(at: TextCursor<'a>, prefix: &str, base: Base) -> Option<TextCursor<'a>>
{
    digits_in(at.past(prefix)?, base)
}

/// Returns the cursor after a prefix and its digits of base 16, 8 or 2, by the rule `based`.
fn based_number(at: TextCursor<'_>) -> Option<TextCursor<'_>>
{
    if let Some(end) = prefix_and_digits(at, "0x", Base::Hexadecimal) {
        return Some(end);
    }
    match prefix_and_digits(at, "0o", Base::Octal) {
        Some(end) => Some(end),
        None => prefix_and_digits(at, "0b", Base::Binary),
    }
}

/// Whether the text begins with the prefix of a base.
fn begins_based(text: &str) -> bool
{
    begins(text, "0x") || begins(text, "0o") || begins(text, "0b")
}

/// Returns the cursor after the number at the cursor, by the rule `number`.
///
/// # Contract
///
/// - `ensures`: <code>[Reads] rule.[number] at.entry result</code>
///
/// [Reads]: crate::contracts#lexical.RuleMatch.Reads
/// [number]: crate::contracts#lexical.Number.number
#[inline(never)]
pub fn number(at: TextCursor<'_>) -> Option<TextCursor<'_>>
{
    if begins_based(at.rest) {
        end(based_number(at)?)
    } else {
        decimal(at)
    }
}
