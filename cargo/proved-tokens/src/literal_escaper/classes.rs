// Made from crates/literal_escaper/src/classes.rt by dev/erase: change that file, not this one.
//! Classes of characters in contents and escapes.
//!
//! An ASCII character is looked up in a table by its byte. Any other character is decoded.

/// A class of characters that the rules for contents name.
#[derive(Clone, Copy)]
pub enum ContentClass {
    /// A character that is skipped after a backslash and a line end.
    Blank,
    /// White space.
    White,
    /// A hex digit.
    HexDigit,
    /// A hex digit or `_`. Either may follow the first digit in braces.
    CodeCharacter,
    /// A character that is an escape by itself after a backslash.
    SimpleEscape,
    /// A character that a string cannot have by itself: a backslash, `"` or CR.
    StringSpecial,
    /// A character that a character literal cannot have by itself: a backslash, `'`, a tab, LF or CR.
    CharSpecial,
    /// A character that a raw string cannot have: CR.
    RawSpecial,
}

/// A byte may be in several classes. Each class is one bit.
const BLANK: u8 = 1;

const WHITE: u8 = 2;

const HEX: u8 = 4;

const CODE: u8 = 8;

const SIMPLE: u8 = 16;

const IN_STRING: u8 = 32;

const IN_CHAR: u8 = 64;

const IN_RAW: u8 = 128;

/// No class.
const NONE: u8 = 0;
/// A tab and LF.
const LINE: u8 = BLANK | WHITE | IN_CHAR;
/// CR.
const RETURN: u8 = BLANK | WHITE | IN_STRING | IN_CHAR | IN_RAW;
/// A space.
const SPACE: u8 = BLANK | WHITE;
/// `"`.
const DOUBLE: u8 = SIMPLE | IN_STRING;
/// `'`.
const QUOTE: u8 = SIMPLE | IN_CHAR;
/// `\`.
const SLASH: u8 = SIMPLE | IN_STRING | IN_CHAR;
/// `0`.
const ZERO: u8 = HEX | CODE | SIMPLE;
/// The other hex digits.
const DIGIT: u8 = HEX | CODE;

/// The classes of each ASCII byte.
#[rustfmt::skip]
static CLASSES: [u8; 128] = [
    NONE, NONE, NONE, NONE, NONE, NONE, NONE, NONE,
    NONE, LINE, LINE, WHITE, WHITE, RETURN, NONE, NONE,
    NONE, NONE, NONE, NONE, NONE, NONE, NONE, NONE,
    NONE, NONE, NONE, NONE, NONE, NONE, NONE, NONE,
    SPACE, NONE, DOUBLE, NONE, NONE, NONE, NONE, QUOTE,
    NONE, NONE, NONE, NONE, NONE, NONE, NONE, NONE,
    ZERO, DIGIT, DIGIT, DIGIT, DIGIT, DIGIT, DIGIT, DIGIT,
    DIGIT, DIGIT, NONE, NONE, NONE, NONE, NONE, NONE,
    NONE, DIGIT, DIGIT, DIGIT, DIGIT, DIGIT, DIGIT, NONE,
    NONE, NONE, NONE, NONE, NONE, NONE, NONE, NONE,
    NONE, NONE, NONE, NONE, NONE, NONE, NONE, NONE,
    NONE, NONE, NONE, NONE, SLASH, NONE, NONE, CODE,
    NONE, DIGIT, DIGIT, DIGIT, DIGIT, DIGIT, DIGIT, NONE,
    NONE, NONE, NONE, NONE, NONE, NONE, SIMPLE, NONE,
    NONE, NONE, SIMPLE, NONE, SIMPLE, NONE, NONE, NONE,
    NONE, NONE, NONE, NONE, NONE, NONE, NONE, NONE,
];

/// Returns the bit of the class.
#[cfg_attr(not(debug_assertions), inline(always))]
fn bit(class: ContentClass) -> u8
{
    match class {
        ContentClass::Blank => BLANK,
        ContentClass::White => WHITE,
        ContentClass::HexDigit => HEX,
        ContentClass::CodeCharacter => CODE,
        ContentClass::SimpleEscape => SIMPLE,
        ContentClass::StringSpecial => IN_STRING,
        ContentClass::CharSpecial => IN_CHAR,
        ContentClass::RawSpecial => IN_RAW,
    }
}

/// Whether the character is in the class.
///
/// # Contract
///
/// - `ensures`: <code>result ≡ [is_in] class c</code>
///
/// [is_in]: crate::contracts#literal_escaper.ContentClass.is_in
#[cfg_attr(not(debug_assertions), inline(always))]
pub fn holds(class: ContentClass, c: char) -> bool
{
    if c.is_ascii() {
        return CLASSES[c as usize] & bit(class) != 0;
    }
    match class {
        ContentClass::White => c.is_whitespace(),
        _ => false,
    }
}
