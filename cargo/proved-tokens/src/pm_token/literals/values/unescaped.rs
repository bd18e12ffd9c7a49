// Made from crates/pm_token/src/literals/values/unescaped.rt by dev/erase: change that file, not this one.
//! The values of contents with escapes.

use crate::shim::prelude::{Grow, GrowList};

use crate::pm_token::literals::conversion::ConversionErrorKind;
use crate::literal_escaper::{EscapeError, MixedUnit, unescape_byte_str, unescape_c_str, unescape_str};
use crate::shim::alloc::AllocError;

/// Returns `fault`, or the fault before it if `fault` is only a warning.
fn last_fault(before: Option<EscapeError>, fault: EscapeError) -> Option<EscapeError>
{
    if fault.is_fatal() {
        Some(fault)
    } else {
        before
    }
}

/// Adds a character at the end of the text.
fn push_char(text: &mut String, c: char) -> Result<(), AllocError>
{
    text.push_fallibly(c)
}

/// Returns the characters of a string's content, with its escapes replaced.
///
/// # Contract
///
/// - `ensures value`: <code>[Answers] [text_of] ([value_from] ([Some] ([units] [string_kind] ([chars]
///   content.now))) [None]) result</code>
/// - `ensures memory`: <code>[units] [string_kind] ([chars] content.now) ≡ [Ok] \[\] → [IsOk] result</code>
///
/// [Answers]: crate::contracts#pm_token.Value.Answers
/// [text_of]: crate::contracts#pm_token.Value.text_of
/// [value_from]: crate::contracts#pm_token.Value.value_from
/// [Some]: crate::contracts#std.Some
/// [units]: crate::contracts#pm_token.Value.units
/// [string_kind]: crate::contracts#literal_escaper.Kind.string_kind
/// [chars]: crate::contracts#std.chars
/// [None]: crate::contracts#std.None
/// [Ok]: crate::contracts#std.Ok
/// [IsOk]: crate::contracts#std.IsOk
pub fn unescaped_string(content: &str) -> Result<String, ConversionErrorKind>
{
    let mut value = String::new();
    let mut fault = None;
    for (_, unit) in unescape_str(content) {
        match unit {
            Ok(c) => push_char(&mut value, c)?,
            Err(e) => fault = last_fault(fault, e),
        }
    }
    match fault {
        None => Ok(value),
        Some(fault) => Err(ConversionErrorKind::from(fault)),
    }
}

/// Returns the bytes of a byte string's content, with its escapes replaced.
///
/// # Contract
///
/// - `ensures value`: <code>[Answers] [bytes_of] ([value_from] ([Some] ([units] [byte_kind] ([chars]
///   content.now))) [None]) result</code>
/// - `ensures memory`: <code>[units] [byte_kind] ([chars] content.now) ≡ [Ok] \[\] → [IsOk] result</code>
///
/// [Answers]: crate::contracts#pm_token.Value.Answers
/// [bytes_of]: crate::contracts#pm_token.Value.bytes_of
/// [value_from]: crate::contracts#pm_token.Value.value_from
/// [Some]: crate::contracts#std.Some
/// [units]: crate::contracts#pm_token.Value.units
/// [byte_kind]: crate::contracts#literal_escaper.Kind.byte_kind
/// [chars]: crate::contracts#std.chars
/// [None]: crate::contracts#std.None
/// [Ok]: crate::contracts#std.Ok
/// [IsOk]: crate::contracts#std.IsOk
pub fn unescaped_bytes(content: &str) -> Result<Vec<u8>, ConversionErrorKind>
{
    let mut value = Vec::new();
    let mut fault = None;
    for (_, unit) in unescape_byte_str(content) {
        match unit {
            Ok(byte) => value.push_fallibly(byte)?,
            Err(e) => fault = last_fault(fault, e),
        }
    }
    match fault {
        None => Ok(value),
        Some(fault) => Err(ConversionErrorKind::from(fault)),
    }
}

/// Adds the bytes of a unit at the end.
fn push_unit(bytes: &mut Vec<u8>, unit: MixedUnit) -> Result<(), AllocError>
{
    match unit {
        MixedUnit::Char(c) => {
            let mut encoded = [0; 4];
            bytes.extend_from_slice_fallibly(c.get().encode_utf8(&mut encoded).as_bytes())
        }
        MixedUnit::HighByte(byte) => Ok(bytes.push_fallibly(byte.get())?),
    }
}

/// Returns the bytes of a C string's content, with its escapes replaced, and a zero byte.
///
/// # Contract
///
/// - `ensures`: <code>[Answers] [bytes_of] ([value_from] ([Some] ([c_bytes] ([units] [c_kind] ([chars]
///   content.now)))) [None]) result</code>
///
/// [Answers]: crate::contracts#pm_token.Value.Answers
/// [bytes_of]: crate::contracts#pm_token.Value.bytes_of
/// [value_from]: crate::contracts#pm_token.Value.value_from
/// [Some]: crate::contracts#std.Some
/// [c_bytes]: crate::contracts#pm_token.Value.c_bytes
/// [units]: crate::contracts#pm_token.Value.units
/// [c_kind]: crate::contracts#literal_escaper.Kind.c_kind
/// [chars]: crate::contracts#std.chars
/// [None]: crate::contracts#std.None
pub fn unescaped_c_string(content: &str) -> Result<Vec<u8>, ConversionErrorKind>
{
    let mut value = Vec::with_capacity_fallibly(content.len().saturating_add(1))?;
    let mut fault = None;
    for (_, unit) in unescape_c_str(content) {
        match unit {
            Ok(unit) => push_unit(&mut value, unit)?,
            Err(e) => fault = last_fault(fault, e),
        }
    }
    if let Some(fault) = fault {
        return Err(ConversionErrorKind::from(fault));
    }
    value.push_fallibly(0)?;
    Ok(value)
}
