// Made from crates/lexical/src/bytes.rt by dev/erase: change that file, not this one.
//! Classes of characters, and steps over the characters of a class.
//!
//! ASCII is read byte by byte, with one table lookup for each byte. A character past ASCII is decoded first.

use crate::lexical::class::{continues_identifier, is_white, starts_identifier};
use crate::lexical::cursor::TextCursor;

/// The base of an integer's digits, which a prefix such as `0x` announces.
#[derive(Clone, Copy)]
pub enum Base {
    /// Base 2, after `0b`.
    Binary,
    /// Base 8, after `0o`.
    Octal,
    /// Base 16, after `0x`.
    Hexadecimal,
}

/// A class of characters that the rules of the grammar name.
#[derive(Clone, Copy)]
pub enum Class {
    /// An ASCII digit.
    Digit,
    /// An ASCII digit or `_`.
    DigitOrUnderscore,
    /// `_`.
    Underscore,
    /// A digit of this base.
    DigitOf(Base),
    /// A digit of this base or `_`.
    DigitOrUnderscoreOf(Base),
    /// `+` or `-`.
    Sign,
    /// `e` or `E`.
    ExponentLetter,
    /// An ASCII hex digit.
    HexDigit,
    /// An ASCII hex digit or `_`.
    CodeDigit,
    /// `#`.
    Hash,
    /// A character that may begin an identifier.
    IdentifierStart,
    /// A character that may continue an identifier.
    IdentifierContinue,
    /// A dot, or a character that may begin an identifier. A dot right before one of these does not belong to a number.
    BarsDot,
    /// White space, or one of the two marks of direction, U+200E and U+200F.
    White,
    /// One of `(`, `[`, `{`.
    Opener,
    /// One of `)`, `]`, `}`.
    Closer,
    /// One of the 22 marks.
    Mark,
}

// Each byte has at most one kind, which is one bit. A class is a set of kinds.
/// No kind: the other ASCII characters, and all bytes past ASCII.
const NONE: u16 = 0;
/// White space.
const WHITE: u16 = 1;
/// `0` and `1`.
const BINARY: u16 = 2;
/// The other octal digits.
const OCTAL: u16 = 4;
/// `8` and `9`.
const DECIMAL: u16 = 8;
/// `e` and `E`.
const EXPONENT: u16 = 16;
/// The other hex digits that are letters.
const HEX: u16 = 32;
/// The other letters.
const LETTER: u16 = 64;
/// `_`.
const UNDERSCORE: u16 = 128;
/// `+` and `-`.
const SIGN: u16 = 256;
/// `#`.
const HASH: u16 = 512;
/// `.`.
const DOT: u16 = 1024;
/// The other marks.
const MARK: u16 = 2048;
/// `(`, `[` and `{`.
const OPENER: u16 = 4096;
/// `)`, `]` and `}`.
const CLOSER: u16 = 8192;

/// The kinds of digits.
const DIGITS: u16 = BINARY | OCTAL | DECIMAL;
/// The kinds of letters.
const LETTERS: u16 = EXPONENT | HEX | LETTER;

/// The kind of each byte. Bytes past ASCII have no kind.
#[rustfmt::skip]
static KINDS: [u16; 256] = [
    NONE, NONE, NONE, NONE, NONE, NONE, NONE, NONE,
    NONE, WHITE, WHITE, WHITE, WHITE, WHITE, NONE, NONE,
    NONE, NONE, NONE, NONE, NONE, NONE, NONE, NONE,
    NONE, NONE, NONE, NONE, NONE, NONE, NONE, NONE,
    WHITE, MARK, NONE, HASH, MARK, MARK, MARK, MARK,
    OPENER, CLOSER, MARK, SIGN, MARK, SIGN, DOT, MARK,
    BINARY, BINARY, OCTAL, OCTAL, OCTAL, OCTAL, OCTAL, OCTAL,
    DECIMAL, DECIMAL, MARK, MARK, MARK, MARK, MARK, MARK,
    MARK, HEX, HEX, HEX, HEX, EXPONENT, HEX, LETTER,
    LETTER, LETTER, LETTER, LETTER, LETTER, LETTER, LETTER, LETTER,
    LETTER, LETTER, LETTER, LETTER, LETTER, LETTER, LETTER, LETTER,
    LETTER, LETTER, LETTER, OPENER, NONE, CLOSER, MARK, UNDERSCORE,
    NONE, HEX, HEX, HEX, HEX, EXPONENT, HEX, LETTER,
    LETTER, LETTER, LETTER, LETTER, LETTER, LETTER, LETTER, LETTER,
    LETTER, LETTER, LETTER, LETTER, LETTER, LETTER, LETTER, LETTER,
    LETTER, LETTER, LETTER, OPENER, MARK, CLOSER, MARK, NONE,
    NONE, NONE, NONE, NONE, NONE, NONE, NONE, NONE, NONE, NONE, NONE, NONE, NONE, NONE, NONE, NONE,
    NONE, NONE, NONE, NONE, NONE, NONE, NONE, NONE, NONE, NONE, NONE, NONE, NONE, NONE, NONE, NONE,
    NONE, NONE, NONE, NONE, NONE, NONE, NONE, NONE, NONE, NONE, NONE, NONE, NONE, NONE, NONE, NONE,
    NONE, NONE, NONE, NONE, NONE, NONE, NONE, NONE, NONE, NONE, NONE, NONE, NONE, NONE, NONE, NONE,
    NONE, NONE, NONE, NONE, NONE, NONE, NONE, NONE, NONE, NONE, NONE, NONE, NONE, NONE, NONE, NONE,
    NONE, NONE, NONE, NONE, NONE, NONE, NONE, NONE, NONE, NONE, NONE, NONE, NONE, NONE, NONE, NONE,
    NONE, NONE, NONE, NONE, NONE, NONE, NONE, NONE, NONE, NONE, NONE, NONE, NONE, NONE, NONE, NONE,
    NONE, NONE, NONE, NONE, NONE, NONE, NONE, NONE, NONE, NONE, NONE, NONE, NONE, NONE, NONE, NONE,
];

/// The kinds of the ASCII characters of the class.
#[cfg_attr(not(debug_assertions), inline(always))]
fn kinds(class: Class) -> u16
{
    match class {
        Class::Digit => DIGITS,
        Class::DigitOrUnderscore => DIGITS | UNDERSCORE,
        Class::Underscore => UNDERSCORE,
        Class::DigitOf(base) => match base {
            Base::Binary => BINARY,
            Base::Octal => BINARY | OCTAL,
            Base::Hexadecimal => DIGITS | EXPONENT | HEX,
        },
        Class::DigitOrUnderscoreOf(base) => match base {
            Base::Binary => BINARY | UNDERSCORE,
            Base::Octal => BINARY | OCTAL | UNDERSCORE,
            Base::Hexadecimal => DIGITS | EXPONENT | HEX | UNDERSCORE,
        },
        Class::Sign => SIGN,
        Class::ExponentLetter => EXPONENT,
        Class::HexDigit => DIGITS | EXPONENT | HEX,
        Class::CodeDigit => DIGITS | EXPONENT | HEX | UNDERSCORE,
        Class::Hash => HASH,
        Class::IdentifierStart => LETTERS | UNDERSCORE,
        Class::IdentifierContinue => LETTERS | UNDERSCORE | DIGITS,
        Class::BarsDot => LETTERS | UNDERSCORE | DOT,
        Class::White => WHITE,
        Class::Opener => OPENER,
        Class::Closer => CLOSER,
        Class::Mark => SIGN | HASH | DOT | MARK,
    }
}

/// Whether the byte is an ASCII character of the class.
///
/// # Contract
///
/// - `ensures`: <code>result ≡ [ascii_in] class byte</code>
///
/// [ascii_in]: crate::contracts#lexical.Bytes.ascii_in
#[cfg_attr(not(debug_assertions), inline(always))]
pub fn holds_ascii(class: Class, byte: u8) -> bool
{
    KINDS[byte as usize] & kinds(class) != 0
}

/// Whether the character is in the class.
///
/// # Contract
///
/// - `ensures`: <code>result ≡ [is_in] class c</code>
///
/// [is_in]: crate::contracts#lexical.Bytes.is_in
#[cfg_attr(not(debug_assertions), inline(always))]
pub fn holds(class: Class, c: char) -> bool
{
    if c.is_ascii() {
        return holds_ascii(class, c as u8);
    }
    match class {
        Class::IdentifierStart | Class::BarsDot => starts_identifier(c),
        Class::IdentifierContinue => continues_identifier(c),
        Class::White => is_white(c),
        _ => false,
    }
}

/// Counts the bytes before the first one that is not an ASCII character of the class.
///
/// # Contract
///
/// - `ensures`: <code>result ≡ [length] ([while_front] ([ascii_in] class) bytes.now)</code>
///
/// [length]: crate::contracts#std.length
/// [while_front]: crate::contracts#lexical.Finder.while_front
/// [ascii_in]: crate::contracts#lexical.Bytes.ascii_in
#[cfg_attr(not(debug_assertions), inline(always))]
pub fn count_ascii(bytes: &[u8], class: Class) -> usize
{
    let mut count = 0;
    while count < bytes.len() {
        if !holds_ascii(class, bytes[count]) {
            break;
        }
        count += 1;
    }
    count
}

/// Returns the cursor after the ASCII characters of the class, at the first character that is none of them.
#[cfg_attr(not(debug_assertions), inline(always))]
fn skip_ascii(at: TextCursor<'_>, class: Class) -> TextCursor<'_>
{
    let size = count_ascii(at.rest.as_bytes(), class);
    TextCursor {
        rest: &at.rest[size..],
        chars_before: at.chars_before + size,
    }
}

/// Returns the cursor after all characters of the class, at the first character that is not in the class.
///
/// # Contract
///
/// - `ensures`: <code>[Passes] ([Run] ([is_in] class)) at.entry result</code>
///
/// [Passes]: crate::contracts#lexical.RuleMatch.Passes
/// [Run]: crate::contracts#lexical.Rule.Run
/// [is_in]: crate::contracts#lexical.Bytes.is_in
#[inline]
pub fn skip(at: TextCursor<'_>, class: Class) -> TextCursor<'_>
{
    let mut end = skip_ascii(at, class);
    while let Some(after) = one(end, class) {
        end = skip_ascii(after, class);
    }
    end
}

/// Returns the cursor after one character if that character is in the class, and otherwise `None`.
///
/// # Contract
///
/// - `ensures`: <code>[Reads] ([One] ([is_in] class)) at.entry result</code>
///
/// [Reads]: crate::contracts#lexical.RuleMatch.Reads
/// [One]: crate::contracts#lexical.Rule.One
/// [is_in]: crate::contracts#lexical.Bytes.is_in
#[inline]
pub fn one(at: TextCursor<'_>, class: Class) -> Option<TextCursor<'_>>
{
    let (c, after) = at.advance()?;
    if holds(class, c) { Some(after) } else { None }
}

/// Whether the character at the cursor is in the class. At the end of the text it is not.
///
/// # Contract
///
/// - `ensures`: <code>result ≡ [first_passes] ([is_in] class) ([chars] at.entry.rest.now)</code>
///
/// [first_passes]: crate::contracts#lexical.Text.first_passes
/// [is_in]: crate::contracts#lexical.Bytes.is_in
/// [chars]: crate::contracts#std.chars
#[inline]
pub fn is_next(at: TextCursor<'_>, class: Class) -> bool
{
    match at.advance() {
        Some((c, _)) => holds(class, c),
        None => false,
    }
}
