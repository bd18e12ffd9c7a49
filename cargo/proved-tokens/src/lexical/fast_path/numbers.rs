// Made from crates/lexical/src/fast_path/numbers.rt by dev/erase: change that file, not this one.
//! Numbers that a few bytes decide.

use crate::lexical::bytes::{Base, Class, count_ascii, holds_ascii};
use crate::lexical::fast_path::byte_at;

/// Whether a number of digits alone ends before this byte, and does not go on as a float.
#[cfg_attr(not(debug_assertions), inline(always))]
fn ends_number(byte: u8) -> bool
{
    byte.is_ascii() && byte != b'.' && !holds_ascii(Class::IdentifierContinue, byte)
}

/// Returns how many bytes the number at the start has, if it consists of digits and `_` only.
///
/// # Contract
///
/// - `ensures`: <code>[IfSome] result ([IsAsciiAt] [Number] text.now)</code>
///
/// [IfSome]: crate::contracts#std.IfSome
/// [IsAsciiAt]: crate::contracts#lexical.Quick.IsAsciiAt
/// [Number]: crate::contracts#lexical.Number.Number
#[cfg_attr(not(debug_assertions), inline(always))]
pub fn number_size(text: &str) -> Option<usize>
{
    let bytes = text.as_bytes();
    if !holds_ascii(Class::Digit, byte_at(bytes, 0)) {
        return None;
    }
    let size = count_ascii(bytes, Class::DigitOrUnderscore);
    if ends_number(byte_at(bytes, size)) {
        Some(size)
    } else {
        None
    }
}

/// Counts the digits and `_` at the start.
///
/// It is not inlined: in [`long_number_size`] its loop would also update a counter for each slice after the digits.
#[inline(never)]
fn count_digits(bytes: &[u8]) -> usize
{
    count_ascii(bytes, Class::DigitOrUnderscore)
}

/// Whether a number without a suffix ends before this byte.
#[cfg_attr(not(debug_assertions), inline(always))]
fn ends_digits(byte: u8) -> bool
{
    byte.is_ascii() && !holds_ascii(Class::IdentifierContinue, byte)
}

/// Returns how many bytes the suffix of a number at the start has. ASCII must follow it, and it must not begin like an
/// exponent.
#[cfg_attr(not(debug_assertions), inline(always))]
fn suffix_size(bytes: &[u8]) -> Option<usize>
{
    let first = byte_at(bytes, 0);
    if holds_ascii(Class::ExponentLetter, first) {
        return None;
    }
    if !holds_ascii(Class::IdentifierStart, first) {
        return if ends_digits(first) { Some(0) } else { None };
    }
    let size = count_ascii(bytes, Class::IdentifierContinue);
    if byte_at(bytes, size).is_ascii() {
        Some(size)
    } else {
        None
    }
}

/// Returns how many bytes the digits of an exponent at the start have, if no `_` precedes them and ASCII follows.
#[cfg_attr(not(debug_assertions), inline(always))]
fn exponent_digits_size(bytes: &[u8]) -> Option<usize>
{
    if !holds_ascii(Class::Digit, byte_at(bytes, 0)) {
        return None;
    }
    let size = count_ascii(bytes, Class::DigitOrUnderscore);
    if byte_at(bytes, size).is_ascii() {
        Some(size)
    } else {
        None
    }
}

/// Returns how many bytes the exponent at the start has, if no `_` precedes its digits.
#[cfg_attr(not(debug_assertions), inline(always))]
fn exponent_size(bytes: &[u8]) -> Option<usize>
{
    if !holds_ascii(Class::ExponentLetter, byte_at(bytes, 0)) {
        return None;
    }
    let after = &bytes[1..];
    if holds_ascii(Class::Sign, byte_at(after, 0)) {
        return Some(exponent_digits_size(&after[1..])? + 2);
    }
    Some(exponent_digits_size(after)? + 1)
}

/// Returns how many bytes an exponent and a suffix at the start have.
#[cfg_attr(not(debug_assertions), inline(always))]
fn exponent_end_size(bytes: &[u8]) -> Option<usize>
{
    let exponent = exponent_size(bytes)?;
    let suffix = suffix_size(&bytes[exponent..])?;
    Some(exponent + suffix)
}

/// Returns how many bytes the float at the start has, if an exponent follows its first `digits` bytes.
#[cfg_attr(not(debug_assertions), inline(always))]
fn dotless_size(bytes: &[u8], digits: usize) -> Option<usize>
{
    if !holds_ascii(Class::ExponentLetter, byte_at(bytes, digits)) {
        return None;
    }
    let end = exponent_end_size(&bytes[digits..])?;
    Some(digits + end)
}

/// Returns how many bytes the end of a float has, after its dot and the digits there: an exponent, if any, and a
/// suffix.
#[cfg_attr(not(debug_assertions), inline(always))]
fn fraction_end_size(bytes: &[u8]) -> Option<usize>
{
    match suffix_size(bytes) {
        Some(size) => Some(size),
        None => exponent_end_size(bytes),
    }
}

/// Returns how many bytes the float at the start has, if a dot follows its first `digits` bytes.
#[cfg_attr(not(debug_assertions), inline(always))]
fn float_size(bytes: &[u8], digits: usize) -> Option<usize>
{
    if byte_at(bytes, digits) != b'.' {
        return None;
    }
    let after = &bytes[digits + 1..];
    let next = byte_at(after, 0);
    if !next.is_ascii() || holds_ascii(Class::BarsDot, next) {
        return None;
    }
    let fraction = count_ascii(after, Class::DigitOrUnderscore);
    let end = fraction_end_size(&after[fraction..])?;
    Some(digits + 1 + fraction + end)
}

/// Returns how many bytes the number at the start has, if its prefix is `0` and this letter, and a digit of the base
/// follows.
#[cfg_attr(not(debug_assertions), inline(always))]
fn based_size(bytes: &[u8], letter: u8, base: Base) -> Option<usize>
{
    if byte_at(bytes, 0) != b'0' || byte_at(bytes, 1) != letter {
        return None;
    }
    let after = &bytes[2..];
    if !holds_ascii(Class::DigitOf(base), byte_at(after, 0)) {
        return None;
    }
    let digits = count_ascii(after, Class::DigitOrUnderscoreOf(base));
    // No suffix begins with a digit, so one that is too large for the base ends with `None`.
    let suffix = suffix_size(&after[digits..])?;
    Some(2 + digits + suffix)
}

/// Whether the byte begins the suffix of an integer, and neither a base nor an exponent.
#[cfg_attr(not(debug_assertions), inline(always))]
fn begins_suffix(byte: u8) -> bool
{
    byte == b'u' || byte == b'i' || byte == b'f'
}

/// Returns how many bytes the integer at the start has, if a suffix follows its first `digits` bytes.
#[cfg_attr(not(debug_assertions), inline(always))]
fn suffixed_size(bytes: &[u8], digits: usize) -> Option<usize>
{
    if !begins_suffix(byte_at(bytes, digits)) {
        return None;
    }
    let suffix = suffix_size(&bytes[digits..])?;
    Some(digits + suffix)
}

/// Returns how many bytes the number at the start has. It is an integer before a dot, or it has a dot, an exponent, a
/// suffix or the prefix of a base.
///
/// # Contract
///
/// - `ensures`: <code>[IfSome] result ([IsAsciiAt] [Number] text.now)</code>
///
/// [IfSome]: crate::contracts#std.IfSome
/// [IsAsciiAt]: crate::contracts#lexical.Quick.IsAsciiAt
/// [Number]: crate::contracts#lexical.Number.Number
#[inline(never)]
pub fn long_number_size(text: &str) -> Option<usize>
{
    let bytes = text.as_bytes();
    if !holds_ascii(Class::Digit, byte_at(bytes, 0)) {
        return None;
    }
    // The byte after the digits decides which form is possible.
    let digits = count_digits(bytes);
    let next = byte_at(bytes, digits);
    if next == b'.' {
        // A dot that begins a range, a call or a field does not belong to the number.
        let after = &bytes[digits + 1..];
        if holds_ascii(Class::BarsDot, byte_at(after, 0)) {
            return Some(digits);
        }
        return float_size(bytes, digits);
    }
    if next == b'x' {
        return based_size(bytes, b'x', Base::Hexadecimal);
    }
    if next == b'o' {
        return based_size(bytes, b'o', Base::Octal);
    }
    if next == b'b' {
        return based_size(bytes, b'b', Base::Binary);
    }
    if begins_suffix(next) {
        return suffixed_size(bytes, digits);
    }
    if holds_ascii(Class::ExponentLetter, next) {
        return dotless_size(bytes, digits);
    }
    None
}
