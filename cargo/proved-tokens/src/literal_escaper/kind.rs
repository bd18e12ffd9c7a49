// Made from crates/literal_escaper/src/kind.rt by dev/erase: change that file, not this one.
//! How each kind of string reads its characters and escapes.

use crate::literal_escaper::errors::EscapeError;
use crate::literal_escaper::mixed_unit::MixedUnit;
use crate::literal_escaper::num::NonZeroChar;

/// A kind of raw content.
pub trait CheckRaw {
    /// The type of its units.
    type Unit: Copy;

    // The unit of a character.

    /// Returns the unit of a character, or an error.
    ///
    /// # Contract
    ///
    /// - `ensures`: <code>result ≡ unit_of c</code>
    fn of_char(c: char) -> Result<Self::Unit, EscapeError>;
}

/// A kind of content with escapes.
pub trait Unescape {
    /// The type of its units.
    type Unit: Copy;

    // How the kind reads characters and escapes.

    // The unit of NUL.

    /// The unit of NUL, which `\0` gives, or an error.
    const NUL: Result<Self::Unit, EscapeError>;

    // NUL is read as any other character.

    /// Returns the unit of a character, or an error.
    ///
    /// # Contract
    ///
    /// - `ensures`: <code>result ≡ kind.of_char c</code>
    fn of_char(c: char) -> Result<Self::Unit, EscapeError>;

    /// Returns the unit of a number of two hex digits, or an error.
    ///
    /// # Contract
    ///
    /// - `ensures`: <code>result ≡ kind.of_hex byte</code>
    fn of_hex(byte: u8) -> Result<Self::Unit, EscapeError>;

    /// Returns the unit of the character whose code is in braces, or an error. `code` may be an error already.
    ///
    /// # Contract
    ///
    /// - `ensures`: <code>result ≡ kind.of_code code</code>
    fn of_code(code: Result<char, EscapeError>) -> Result<Self::Unit, EscapeError>;
}

/// Strings and character literals.
pub struct Str;

/// Byte strings and byte literals.
pub struct Bytes;

/// C strings.
pub struct CStr;

/// Returns the byte of an ASCII character, or an error.
fn byte_of(c: char) -> Result<u8, EscapeError>
{
    if !c.is_ascii() {
        return Err(EscapeError::NonAsciiCharInByte);
    }
    Ok(c as u8)
}

impl CheckRaw for Str {
    type Unit = char;

    fn of_char(c: char) -> Result<char, EscapeError> {
        Ok(c)
    }
}

impl CheckRaw for Bytes {
    type Unit = u8;

    fn of_char(c: char) -> Result<u8, EscapeError> {
        byte_of(c)
    }
}

impl CheckRaw for CStr {
    type Unit = NonZeroChar;

    fn of_char(c: char) -> Result<NonZeroChar, EscapeError> {
        match NonZeroChar::new(c) {
            Some(c) => Ok(c),
            None => Err(EscapeError::NulInCStr),
        }
    }
}

impl Unescape for Str {
    type Unit = char;

    const NUL: Result<char, EscapeError> = Ok('\0');

    fn of_char(c: char) -> Result<char, EscapeError> {
        Ok(c)
    }

    fn of_hex(byte: u8) -> Result<char, EscapeError> {
        if !byte.is_ascii() {
            return Err(EscapeError::OutOfRangeHexEscape);
        }
        Ok(char::from(byte))
    }

    fn of_code(code: Result<char, EscapeError>) -> Result<char, EscapeError> {
        code
    }
}

impl Unescape for Bytes {
    type Unit = u8;

    const NUL: Result<u8, EscapeError> = Ok(0);

    fn of_char(c: char) -> Result<u8, EscapeError> {
        byte_of(c)
    }

    fn of_hex(byte: u8) -> Result<u8, EscapeError> {
        Ok(byte)
    }

    fn of_code(_code: Result<char, EscapeError>) -> Result<u8, EscapeError> {
        Err(EscapeError::UnicodeEscapeInByte)
    }
}

impl Unescape for CStr {
    type Unit = MixedUnit;

    const NUL: Result<MixedUnit, EscapeError> = Err(EscapeError::NulInCStr);

    fn of_char(c: char) -> Result<MixedUnit, EscapeError> {
        MixedUnit::try_from(c)
    }

    fn of_hex(byte: u8) -> Result<MixedUnit, EscapeError> {
        MixedUnit::try_from(byte)
    }

    fn of_code(code: Result<char, EscapeError>) -> Result<MixedUnit, EscapeError> {
        MixedUnit::try_from(code?)
    }
}

/// Returns the character that has this code, or an error.
///
/// # Contract
///
/// - `ensures`: <code>result ≡ [character] code</code>
///
/// [character]: crate::contracts#literal_escaper.Kind.character
pub fn character_of(code: u32) -> Result<char, EscapeError>
{
    match char::from_u32(code) {
        Some(c) => Ok(c),
        None if code > 0x10_FFFF => Err(EscapeError::OutOfRangeUnicodeEscape),
        None => Err(EscapeError::LoneSurrogateUnicodeEscape),
    }
}
