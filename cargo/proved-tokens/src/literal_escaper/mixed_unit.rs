// Made from crates/literal_escaper/src/mixed_unit.rt by dev/erase: change that file, not this one.
//! The units of C strings.

use crate::literal_escaper::errors::EscapeError;
use crate::literal_escaper::num::{NonZeroChar, NonZeroU8};

/// A unit of a C string: a character, or a byte past ASCII.
#[derive(Clone, Copy, Debug, PartialEq, Eq)]
pub enum MixedUnit {
    /// A character, which is written as its bytes in UTF-8: `é`, `\u{E9}`, and `\x01` to `\x7F`.
    Char(NonZeroChar),
    /// A byte past ASCII: `\x80`.
    HighByte(NonZeroU8),
}

/// Makes a unit of the character.
impl From<NonZeroChar> for MixedUnit {
    fn from(c: NonZeroChar) -> MixedUnit {
        MixedUnit::Char(c)
    }
}

/// Makes the character of a byte up to 0x7F, and of other bytes the byte itself.
impl From<NonZeroU8> for MixedUnit {
    fn from(byte: NonZeroU8) -> MixedUnit {
        let code = byte.get();
        if code.is_ascii() {
            if let Some(c) = NonZeroChar::new(char::from(code)) {
                return MixedUnit::Char(c);
            }
        }
        MixedUnit::HighByte(byte)
    }
}

/// Makes a unit of the character. NUL is the error `NulInCStr`.
impl TryFrom<char> for MixedUnit {
    type Error = EscapeError;

    fn try_from(c: char) -> Result<MixedUnit, EscapeError> {
        match NonZeroChar::new(c) {
            Some(c) => Ok(MixedUnit::from(c)),
            None => Err(EscapeError::NulInCStr),
        }
    }
}

/// Makes the character of a byte up to 0x7F, and of other bytes the byte itself. Zero is the error `NulInCStr`.
impl TryFrom<u8> for MixedUnit {
    type Error = EscapeError;

    fn try_from(byte: u8) -> Result<MixedUnit, EscapeError> {
        match NonZeroU8::new(byte) {
            Some(byte) => Ok(MixedUnit::from(byte)),
            None => Err(EscapeError::NulInCStr),
        }
    }
}
