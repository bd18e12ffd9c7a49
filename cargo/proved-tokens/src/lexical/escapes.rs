// Made from crates/lexical/src/escapes.rt by dev/erase: change that file, not this one.
//! Escapes: what follows a backslash in a literal.

use crate::lexical::bytes::{Base, Class, one, skip};
use crate::lexical::cursor::TextCursor;
use crate::lexical::quoted::StringKind;
use crate::lexical::skip::one as one_that;
use crate::lexical::text::{before, begins};

/// Whether a backslash and this letter are a simple escape, by the rule `simple-escape`.
///
/// # Contract
///
/// - `ensures`: <code>result ≡ [is_one_of] (rule.[letters] kind) c</code>
///
/// [is_one_of]: crate::contracts#lexical.Quoted.is_one_of
/// [letters]: crate::contracts#lexical.Quoted.letters
pub fn is_letter(c: char, kind: StringKind) -> bool
{
    match c {
        'n' | 'r' | 't' | '\\' | '\'' | '"' => true,
        '0' => !matches!(kind, StringKind::C),
        _ => false,
    }
}

/// Returns the cursor after the letter of a simple escape.
fn simple(at: TextCursor<'_>, kind: StringKind) -> Option<TextCursor<'_>>
{
    one_that(at, |c| is_letter(c, kind))
}

/// Returns the cursor after two hex digits.
fn hex_pair(at: TextCursor<'_>) -> Option<TextCursor<'_>>
{
    one(one(at, Class::HexDigit)?, Class::HexDigit)
}

/// Returns the cursor after two hex digits if a literal of the kind allows them after `\x`.
fn pair(at: TextCursor<'_>, kind: StringKind) -> Option<TextCursor<'_>>
{
    match kind {
        StringKind::Plain => one(one(at, Class::DigitOf(Base::Octal))?, Class::HexDigit),
        StringKind::Byte => hex_pair(at),
        StringKind::C => {
            if begins(at.rest, "00") {
                return None;
            }
            hex_pair(at)
        }
    }
}

/// Returns the cursor after `x` and its two digits, by the rule `hex-escape`.
fn hex(at: TextCursor<'_>, kind: StringKind) -> Option<TextCursor<'_>>
{
    pair(at.past("x")?, kind)
}

/// Whether `\u{..}` may have this value in a literal of the kind.
fn allows(kind: StringKind, value: u32) -> bool
{
    match kind {
        StringKind::Plain => true,
        StringKind::Byte => false,
        StringKind::C => value > 0,
    }
}

/// The largest number of hex digits in `\u{..}`.
const MOST_DIGITS: u32 = 6;

/// Whether there are at most six hex digits, and they are the code of a character that the kind allows. Any `_` among
/// them is skipped.
///
/// # Contract
///
/// - `requires`: <code>[IsTrue] ([list_all] [is_code_digit] code.now)</code>
/// - `ensures`: <code>result ≡ [is_code] (rule.[allows] kind) code.now</code>
///
/// [IsTrue]: crate::contracts#std.IsTrue
/// [list_all]: crate::contracts#std.list_all
/// [is_code_digit]: crate::contracts#lexical.Quoted.is_code_digit
/// [is_code]: crate::contracts#lexical.Quoted.is_code
/// [allows]: crate::contracts#lexical.Quoted.allows
pub fn writes_character(code: &[u8], kind: StringKind) -> bool
{
    let mut value: u32 = 0;
    let mut count: u32 = 0;
    for byte in code {
        if let Some(digit) = (*byte as char).to_digit(16) {
            value = 16 * value + digit;
            count += 1;
        }
        if count > MOST_DIGITS || value > 0x10_FFFF {
            return false;
        }
    }
    char::from_u32(value).is_some() && allows(kind, value)
}

/// Returns the cursor after the code of a character: one hex digit and all hex digits and `_` after it.
fn code(at: TextCursor<'_>, kind: StringKind) -> Option<TextCursor<'_>>
{
    let first = one(at, Class::HexDigit)?;
    let end = skip(first, Class::CodeDigit);
    if !writes_character(before(at.rest, end.rest).as_bytes(), kind) {
        return None;
    }
    Some(end)
}

/// Returns the cursor after `u{`, the code of a character and `}`, by the rule `unicode-escape`.
fn unicode(at: TextCursor<'_>, kind: StringKind) -> Option<TextCursor<'_>>
{
    code(at.past("u{")?, kind)?.past("}")
}

/// Returns the cursor after an escape: a letter, `x` and two digits, or `u{..}` with the code of a character.
///
/// # Contract
///
/// - `ensures`: <code>[Reads] (rule.[escape] kind) at.entry result</code>
///
/// [Reads]: crate::contracts#lexical.RuleMatch.Reads
/// [escape]: crate::contracts#lexical.Quoted.escape
pub fn escape(at: TextCursor<'_>, kind: StringKind) -> Option<TextCursor<'_>>
{
    if let Some(end) = simple(at, kind) {
        return Some(end);
    }
    match hex(at, kind) {
        Some(end) => Some(end),
        None => unicode(at, kind),
    }
}
