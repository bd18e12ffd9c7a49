// Made from crates/lexical/src/class.rt by dev/erase: change that file, not this one.
//! Classes of characters, and which piece a character can begin.

use crate::lexical::bytes::{Class, holds};

/// What the first character of a text says about the piece there.
#[derive(Clone, Copy)]
pub enum PieceStart {
    /// A white character.
    White,
    /// A character that may begin an identifier.
    Letter,
    /// A digit from 0 to 9.
    Digit,
    /// One of `(`, `[`, `{`.
    Opener,
    /// One of `)`, `]`, `}`.
    Closer,
    /// `/`, with which a comment may begin.
    Slash,
    /// `'`.
    Quote,
    /// `"`.
    DoubleQuote,
    /// The byte order mark U+FEFF.
    FrontMark,
    /// One of the other marks.
    Mark,
    /// Any other character. No piece begins with it.
    Other,
}

/// Whether the character is white space or one of the two marks of direction, by the rule `white`.
///
/// # Contract
///
/// - `ensures`: <code>result ≡ [white] c</code>
///
/// [white]: crate::contracts#lexical.Class.is_white
pub fn is_white(c: char) -> bool
{
    c.is_whitespace() || c == '\u{200E}' || c == '\u{200F}'
}

/// Whether an identifier may begin with the character, by the rule `identifier-start`.
///
/// # Contract
///
/// - `ensures`: <code>result ≡ [is_ident_start] c</code>
///
/// [is_ident_start]: crate::contracts#lexical.Class.is_ident_start
pub fn starts_identifier(c: char) -> bool
{
    if c.is_ascii() {
        return c.is_ascii_alphabetic() | (c == '_');
    }
    crate::shim::unicode_ident::is_xid_start(c) && !is_white(c) && c != '\u{FEFF}'
}

/// Whether an identifier may continue with the character, by the rule `identifier-continue`.
///
/// # Contract
///
/// - `ensures`: <code>result ≡ [is_ident_continue] c</code>
///
/// [is_ident_continue]: crate::contracts#lexical.Class.is_ident_continue
pub fn continues_identifier(c: char) -> bool
{
    if c.is_ascii() {
        return c.is_ascii_alphanumeric() | (c == '_');
    }
    crate::shim::unicode_ident::is_xid_continue(c)
}

/// Short names for the table below.
const WHITE: PieceStart = PieceStart::White;

const LETTER: PieceStart = PieceStart::Letter;

const DIGIT: PieceStart = PieceStart::Digit;

const OPENER: PieceStart = PieceStart::Opener;

const CLOSER: PieceStart = PieceStart::Closer;

const SLASH: PieceStart = PieceStart::Slash;

const QUOTE: PieceStart = PieceStart::Quote;

const DOUBLE_QUOTE: PieceStart = PieceStart::DoubleQuote;

const MARK: PieceStart = PieceStart::Mark;

const OTHER: PieceStart = PieceStart::Other;

/// What each ASCII byte can begin. A byte past ASCII does not decide it, so its entry is `OTHER`.
#[rustfmt::skip]
static STARTS: [PieceStart; 256] = [
    OTHER, OTHER, OTHER, OTHER, OTHER, OTHER, OTHER, OTHER,
    OTHER, WHITE, WHITE, WHITE, WHITE, WHITE, OTHER, OTHER,
    OTHER, OTHER, OTHER, OTHER, OTHER, OTHER, OTHER, OTHER,
    OTHER, OTHER, OTHER, OTHER, OTHER, OTHER, OTHER, OTHER,
    WHITE, MARK, DOUBLE_QUOTE, MARK, MARK, MARK, MARK, QUOTE,
    OPENER, CLOSER, MARK, MARK, MARK, MARK, MARK, SLASH,
    DIGIT, DIGIT, DIGIT, DIGIT, DIGIT, DIGIT, DIGIT, DIGIT,
    DIGIT, DIGIT, MARK, MARK, MARK, MARK, MARK, MARK,
    MARK, LETTER, LETTER, LETTER, LETTER, LETTER, LETTER, LETTER,
    LETTER, LETTER, LETTER, LETTER, LETTER, LETTER, LETTER, LETTER,
    LETTER, LETTER, LETTER, LETTER, LETTER, LETTER, LETTER, LETTER,
    LETTER, LETTER, LETTER, OPENER, OTHER, CLOSER, MARK, LETTER,
    OTHER, LETTER, LETTER, LETTER, LETTER, LETTER, LETTER, LETTER,
    LETTER, LETTER, LETTER, LETTER, LETTER, LETTER, LETTER, LETTER,
    LETTER, LETTER, LETTER, LETTER, LETTER, LETTER, LETTER, LETTER,
    LETTER, LETTER, LETTER, OPENER, MARK, CLOSER, MARK, OTHER,
    OTHER, OTHER, OTHER, OTHER, OTHER, OTHER, OTHER, OTHER, OTHER, OTHER, OTHER, OTHER, OTHER, OTHER, OTHER, OTHER,
    OTHER, OTHER, OTHER, OTHER, OTHER, OTHER, OTHER, OTHER, OTHER, OTHER, OTHER, OTHER, OTHER, OTHER, OTHER, OTHER,
    OTHER, OTHER, OTHER, OTHER, OTHER, OTHER, OTHER, OTHER, OTHER, OTHER, OTHER, OTHER, OTHER, OTHER, OTHER, OTHER,
    OTHER, OTHER, OTHER, OTHER, OTHER, OTHER, OTHER, OTHER, OTHER, OTHER, OTHER, OTHER, OTHER, OTHER, OTHER, OTHER,
    OTHER, OTHER, OTHER, OTHER, OTHER, OTHER, OTHER, OTHER, OTHER, OTHER, OTHER, OTHER, OTHER, OTHER, OTHER, OTHER,
    OTHER, OTHER, OTHER, OTHER, OTHER, OTHER, OTHER, OTHER, OTHER, OTHER, OTHER, OTHER, OTHER, OTHER, OTHER, OTHER,
    OTHER, OTHER, OTHER, OTHER, OTHER, OTHER, OTHER, OTHER, OTHER, OTHER, OTHER, OTHER, OTHER, OTHER, OTHER, OTHER,
    OTHER, OTHER, OTHER, OTHER, OTHER, OTHER, OTHER, OTHER, OTHER, OTHER, OTHER, OTHER, OTHER, OTHER, OTHER, OTHER,
];

/// What the first byte of a text says about the piece there. It says nothing if the byte is past ASCII.
///
/// # Contract
///
/// - `ensures`: <code>result ≡ [byte_starts] byte</code>
///
/// [byte_starts]: crate::contracts#lexical.Quick.byte_starts
#[cfg_attr(not(debug_assertions), inline(always))]
pub fn byte_start(byte: u8) -> PieceStart
{
    STARTS[byte as usize]
}

/// Returns what the first character of a text says about the piece there.
///
/// # Contract
///
/// - `ensures`: <code>result ≡ [piece_start] c</code>
///
/// [piece_start]: crate::contracts#lexical.PieceFinder.piece_start
#[cfg_attr(not(debug_assertions), inline(always))]
pub fn piece_start_of(c: char) -> PieceStart
{
    if holds(Class::IdentifierStart, c) {
        return PieceStart::Letter;
    }
    if holds(Class::White, c) {
        return PieceStart::White;
    }
    if holds(Class::Digit, c) {
        return PieceStart::Digit;
    }
    match c {
        '(' | '[' | '{' => PieceStart::Opener,
        ')' | ']' | '}' => PieceStart::Closer,
        '/' => PieceStart::Slash,
        '\'' => PieceStart::Quote,
        '"' => PieceStart::DoubleQuote,
        '\u{FEFF}' => PieceStart::FrontMark,
        _ if holds(Class::Mark, c) => PieceStart::Mark,
        _ => PieceStart::Other,
    }
}
