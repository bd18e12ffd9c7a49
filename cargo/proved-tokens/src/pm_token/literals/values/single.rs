// Made from crates/pm_token/src/literals/values/single.rt by dev/erase: change that file, not this one.
//! The values of characters and bytes, from their text.

use crate::pm_token::literals::conversion::ConversionErrorKind;
use crate::pm_token::literals::values::content::single_content;
use crate::literal_escaper::{unescape_byte, unescape_char};

/// Returns the character between the quotes of a character literal (`character-value`).
///
/// # Contract
///
/// - `ensures`: <code>result ≡ [char_value] ([chars] text.now)</code>
///
/// [char_value]: crate::contracts#pm_token.SingleValue.char_value
/// [chars]: crate::contracts#std.chars
pub fn character_of(text: &str) -> Result<char, ConversionErrorKind>
{
    match single_content(text, "'") {
        Some(content) => Ok(unescape_char(content)?),
        None => Err(ConversionErrorKind::InvalidLiteralKind),
    }
}

/// Returns the byte between the quotes of a byte literal (`byte-value`).
///
/// # Contract
///
/// - `ensures`: <code>result ≡ [byte_value] ([chars] text.now)</code>
///
/// [byte_value]: crate::contracts#pm_token.SingleValue.byte_value
/// [chars]: crate::contracts#std.chars
pub fn byte_of(text: &str) -> Result<u8, ConversionErrorKind>
{
    match single_content(text, "b'") {
        Some(content) => Ok(unescape_byte(content)?),
        None => Err(ConversionErrorKind::InvalidLiteralKind),
    }
}
