// Made from crates/literal_escaper/src/errors.rt by dev/erase: change that file, not this one.
//! The errors in the content of a literal.

use crate::shim::fmt;

/// An error in the content of a literal, or a warning about it.
#[derive(Debug, PartialEq, Eq)]
#[non_exhaustive]
pub enum EscapeError {
    /// No character in a literal that needs one: the content of `''`.
    ZeroChars,
    /// More than one character in a literal for one: `ab` in `'ab'`.
    MoreThanOneChar,
    /// A backslash with nothing after it: `\` at the end.
    LoneSlash,
    /// A backslash before a character that begins no escape: `\z`, or `\` before a CR.
    InvalidEscape,
    /// A CR in a content with escapes: `a` CR LF. It is an error even before LF, unless it is skipped after a backslash
    /// and LF.
    BareCarriageReturn,
    /// A CR in a raw content: `a` CR.
    BareCarriageReturnInRawString,
    /// A character that must be escaped: `"` in a string, `'` or a tab in a character.
    EscapeOnlyChar,
    /// The text ends before the second digit of a hex escape: `\x1`.
    TooShortHexEscape,
    /// A character that is no hex digit, in a hex escape: `\xz`.
    InvalidCharInHexEscape,
    /// A hex escape past ASCII in a literal of characters: `\x80` in a string.
    OutOfRangeHexEscape,
    /// No `{` after `\u`: `\u41`.
    NoBraceInUnicodeEscape,
    /// A character in braces that is neither a hex digit nor `_`: `\u{4g}`.
    InvalidCharInUnicodeEscape,
    /// Braces with nothing inside: `\u{}`.
    EmptyUnicodeEscape,
    /// The text ends before the closing brace: `\u{41`.
    UnclosedUnicodeEscape,
    /// An underscore right after the opening brace: `\u{_41}`.
    LeadingUnderscoreUnicodeEscape,
    /// More than six hex digits in the braces: `\u{0000041}`.
    OverlongUnicodeEscape,
    /// The code of a surrogate: `\u{D800}`.
    LoneSurrogateUnicodeEscape,
    /// A number above 10FFFF: `\u{110000}`.
    OutOfRangeUnicodeEscape,
    /// An escape `\u{..}` in a literal of bytes: `\u{41}` in a byte string.
    UnicodeEscapeInByte,
    /// A character past ASCII in a literal of bytes: `é` in a byte string.
    NonAsciiCharInByte,
    /// A zero in a C string: `\0`.
    NulInCStr,
    /// A warning: after a skipped line end and the blanks after it comes a white character that is not skipped, such as
    /// U+00A0.
    UnskippedWhitespaceWarning,
    /// A warning: more than one line end is skipped, as in `\` LF LF.
    MultipleSkippedLinesWarning,
}

impl EscapeError {
    /// Whether it is an error and not one of the two warnings, by the rule `fatal`: `true` for `LoneSlash`, `false` for
    /// `MultipleSkippedLinesWarning`.
    ///
    /// # Contract
    ///
    /// - `ensures`: <code>result ≡ [is_fault] self.now</code>
    ///
    /// [is_fault]: crate::contracts#literal_escaper.Warning.is_fault
    pub fn is_fatal(&self) -> bool
    {
        match self {
            EscapeError::UnskippedWhitespaceWarning => false,
            EscapeError::MultipleSkippedLinesWarning => false,
            _ => true,
        }
    }

    /// Returns the message that `Display` writes: `nothing follows the backslash` for `LoneSlash`.
    ///
    /// # Contract
    ///
    /// - `ensures`: <code>result.now ≡ [escape_message] self.now</code>
    ///
    /// [escape_message]: crate::contracts#literal_escaper.EscapeMessage.escape_message
    pub fn message(&self) -> &'static str
    {
        match self {
            EscapeError::ZeroChars => "no character stands between the quotes",
            EscapeError::MoreThanOneChar => "more than one character stands between the quotes",
            EscapeError::LoneSlash => "nothing follows the backslash",
            EscapeError::InvalidEscape => "no escape begins so",
            EscapeError::BareCarriageReturn => "CR that is not escaped",
            EscapeError::BareCarriageReturnInRawString => "CR in a raw string",
            EscapeError::EscapeOnlyChar => "this character stands here only escaped",
            EscapeError::TooShortHexEscape => "fewer than two digits in the escape",
            EscapeError::InvalidCharInHexEscape => "this is no digit to the base 16",
            EscapeError::OutOfRangeHexEscape => "an escape past ASCII where characters are wanted",
            EscapeError::NoBraceInUnicodeEscape => "no brace follows the front of the escape",
            EscapeError::InvalidCharInUnicodeEscape => "this is no digit to the base 16",
            EscapeError::EmptyUnicodeEscape => "no digit stands in the escape",
            EscapeError::UnclosedUnicodeEscape => "no brace ends the escape",
            EscapeError::LeadingUnderscoreUnicodeEscape =>
                "an underscore before the digits of the escape",
            EscapeError::OverlongUnicodeEscape => "more than six digits in the escape",
            EscapeError::LoneSurrogateUnicodeEscape => "the code of a surrogate",
            EscapeError::OutOfRangeUnicodeEscape => "a code above 10FFFF",
            EscapeError::UnicodeEscapeInByte => "an escape of a character where bytes are wanted",
            EscapeError::NonAsciiCharInByte => "a character past ASCII where bytes are wanted",
            EscapeError::NulInCStr => "a zero in a C string",
            EscapeError::UnskippedWhitespaceWarning => "white space that is not skipped",
            EscapeError::MultipleSkippedLinesWarning => "more than one line end is skipped",
        }
    }
}

impl fmt::Display for EscapeError {
    fn fmt<W: fmt::Write>(&self, f: &mut fmt::Formatter<W>) -> fmt::Result {
        f.write_str(self.message())
    }
}

crate::shim::display!(EscapeError);
