// Made from crates/literal_escaper/src/escape.rt by dev/erase: change that file, not this one.
//! Reads escapes: what follows a backslash.

use crate::literal_escaper::classes::{ContentClass, holds};
use crate::literal_escaper::content_cursor::ContentCursor;
use crate::literal_escaper::errors::EscapeError;
use crate::literal_escaper::kind::{Unescape, character_of};

/// Returns the character that a letter after a backslash means, by the rule `item-letter`.
fn simple_escape(c: char) -> Option<char>
{
    if !holds(ContentClass::SimpleEscape, c) {
        return None;
    }
    match c {
        '0' => Some('\0'),
        'n' => Some('\n'),
        'r' => Some('\r'),
        't' => Some('\t'),
        _ => Some(c),
    }
}

/// Returns the unit of a letter after a backslash, or an error.
fn letter_escape<K: Unescape>(c: char) -> Result<K::Unit, EscapeError>
{
    match simple_escape(c) {
        Some('\0') => K::NUL,
        Some(c) => K::of_char(c),
        None => Err(EscapeError::InvalidEscape),
    }
}

/// Returns the unit of two hex digits, of which the first was read, or an error.
fn low_digit<K: Unescape>(
    high: u32,
    at: ContentCursor<'_>,
) -> (Result<K::Unit, EscapeError>, ContentCursor<'_>)
{
    let Some((c, after)) = at.advance() else {
        return (Err(EscapeError::TooShortHexEscape), at);
    };
    let Some(low) = c.to_digit(16) else {
        return (Err(EscapeError::InvalidCharInHexEscape), after);
    };
    (K::of_hex((16 * high + low) as u8), after)
}

/// Returns the unit of two hex digits, by the rule `item-hex`, or an error.
fn hex_escape<K: Unescape>(
    at: ContentCursor<'_>,
) -> (Result<K::Unit, EscapeError>, ContentCursor<'_>)
{
    let Some((c, after)) = at.advance() else {
        return (Err(EscapeError::TooShortHexEscape), at);
    };
    let Some(high) = c.to_digit(16) else {
        return (Err(EscapeError::InvalidCharInHexEscape), after);
    };
    low_digit::<K>(high, after)
}

/// The largest number that is kept for the digits in braces: that of the last character with one more digit.
const LARGEST_CODE: u32 = 0x10F_FFFF;

/// The number that the digits in braces write.
#[derive(Clone, Copy)]
struct Code<'a> {
    /// How many digits there are. Seven means seven or more.
    count: u32,
    /// Their number. Once it is above 10FFFF, further digits leave it unchanged.
    number: u32,
    /// The cursor after the digits and the underscores among them.
    after: ContentCursor<'a>,
}

/// Returns the count with one more digit, but at most seven.
fn one_more(count: u32) -> u32
{
    if count < 7 { count + 1 } else { count }
}

/// Returns the number with the digit after it. A number above 10FFFF stays as it is.
fn append_digit(number: u32, digit: u32) -> u32
{
    if number <= 0x10_FFFF {
        16 * number + digit
    } else {
        number
    }
}

/// Reads the digits at the cursor and the underscores among them.
fn digits(at: ContentCursor<'_>) -> Code<'_>
{
    let mut count: u32 = 0;
    let mut number: u32 = 0;
    let mut after = at;
    while let Some((c, next)) = after.advance() {
        if !holds(ContentClass::CodeCharacter, c) {
            break;
        }
        if let Some(digit) = c.to_digit(16) {
            count = one_more(count);
            number = append_digit(number, digit);
        }
        after = next;
    }
    Code {
        count,
        number,
        after,
    }
}

/// Returns the unit of this many digits with this number, or an error.
fn code_escape<K: Unescape>(count: u32, number: u32) -> Result<K::Unit, EscapeError>
{
    if count > 6 {
        return Err(EscapeError::OverlongUnicodeEscape);
    }
    K::of_code(character_of(number))
}

/// Reads the digits at the cursor and the closing brace after them.
fn rest_of_code<K: Unescape>(
    at: ContentCursor<'_>,
) -> (Result<K::Unit, EscapeError>, ContentCursor<'_>)
{
    let code = digits(at);
    match code.after.advance() {
        None => (Err(EscapeError::UnclosedUnicodeEscape), code.after),
        Some(('}', after)) => (code_escape::<K>(code.count, code.number), after),
        Some((_, after)) => (Err(EscapeError::InvalidCharInUnicodeEscape), after),
    }
}

/// Returns the unit of a character's code and its closing brace, or an error. The opening brace was read.
fn braced_escape<K: Unescape>(
    at: ContentCursor<'_>,
) -> (Result<K::Unit, EscapeError>, ContentCursor<'_>)
{
    let Some((c, after)) = at.advance() else {
        return (Err(EscapeError::UnclosedUnicodeEscape), at);
    };
    if c == '_' {
        return (Err(EscapeError::LeadingUnderscoreUnicodeEscape), after);
    }
    if c == '}' {
        return (Err(EscapeError::EmptyUnicodeEscape), after);
    }
    if !holds(ContentClass::HexDigit, c) {
        return (Err(EscapeError::InvalidCharInUnicodeEscape), after);
    }
    rest_of_code::<K>(at)
}

/// Returns the unit of a character's code in braces, by the rule `item-code`, or an error.
fn unicode_escape<K: Unescape>(
    at: ContentCursor<'_>,
) -> (Result<K::Unit, EscapeError>, ContentCursor<'_>)
{
    match at.advance() {
        None => (Err(EscapeError::NoBraceInUnicodeEscape), at),
        Some(('{', after)) => braced_escape::<K>(after),
        Some((_, after)) => (Err(EscapeError::NoBraceInUnicodeEscape), after),
    }
}

/// Returns the unit of the escape after a backslash, by the rule `item-escape`, or an error.
///
/// # Contract
///
/// - `ensures`: <code>[Gives] ([what_escapes] K.kind ([text_at] at.entry)) at.entry result</code>
///
/// [Gives]: crate::contracts#literal_escaper.Unescaping.Gives
/// [what_escapes]: crate::contracts#literal_escaper.Escape.escape
/// [text_at]: crate::contracts#literal_escaper.Unescaping.text_at
pub fn escape<K: Unescape>(
    at: ContentCursor<'_>,
) -> (Result<K::Unit, EscapeError>, ContentCursor<'_>)
{
    match at.advance() {
        None => (Err(EscapeError::LoneSlash), at),
        Some(('x', after)) => hex_escape::<K>(after),
        Some(('u', after)) => unicode_escape::<K>(after),
        Some((c, after)) => (letter_escape::<K>(c), after),
    }
}
