// Made from crates/pm_token/src/literals/values/raw.rt by dev/erase: change that file, not this one.
//! The values of contents without escapes.

use crate::shim::prelude::{Grow, GrowList, GrowText};

use crate::shim::alloc::AllocError;

/// Copies the content of a raw string.
///
/// # Contract
///
/// - `ensures ok`: <code>[IfOk] result (λ value. [text_of] value ≡ [chars] content.now)</code>
/// - `ensures memory`: <code>[chars] content.now ≡ \[\] → [IsOk] result</code>
///
/// [IfOk]: crate::contracts#std.IfOk
/// [text_of]: crate::contracts#pm_token.Value.text_of
/// [chars]: crate::contracts#std.chars
/// [IsOk]: crate::contracts#std.IsOk
pub fn raw_string(content: &str) -> Result<String, AllocError>
{
    let mut value = String::new();
    value.push_str_fallibly(content)?;
    Ok(value)
}

/// Copies the bytes of the content of a raw byte string.
///
/// # Contract
///
/// - `ensures ok`: <code>[IfOk] result (λ value. [bytes_of] value ≡ [encode_utf8_all] ([chars]
///   content.now))</code>
/// - `ensures memory`: <code>[encode_utf8_all] ([chars] content.now) ≡ \[\] → [IsOk] result</code>
///
/// [IfOk]: crate::contracts#std.IfOk
/// [bytes_of]: crate::contracts#pm_token.Value.bytes_of
/// [encode_utf8_all]: crate::contracts#std.encode_utf8_all
/// [chars]: crate::contracts#std.chars
/// [IsOk]: crate::contracts#std.IsOk
pub fn raw_bytes(content: &str) -> Result<Vec<u8>, AllocError>
{
    let mut value = Vec::new();
    value.extend_from_slice_fallibly(content.as_bytes())?;
    Ok(value)
}

/// Copies the bytes of the content of a raw C string, and adds a zero byte.
///
/// # Contract
///
/// - `ensures`: <code>[IfOk] result (λ value. [bytes_of] value ≡ [with_zero] ([encode_utf8_all] ([chars]
///   content.now)))</code>
///
/// [IfOk]: crate::contracts#std.IfOk
/// [bytes_of]: crate::contracts#pm_token.Value.bytes_of
/// [with_zero]: crate::contracts#pm_token.Value.with_zero
/// [encode_utf8_all]: crate::contracts#std.encode_utf8_all
/// [chars]: crate::contracts#std.chars
pub fn raw_c_string(content: &str) -> Result<Vec<u8>, AllocError>
{
    let mut value = Vec::with_capacity_fallibly(content.len().saturating_add(1))?;
    value.extend_from_slice_fallibly(content.as_bytes())?;
    value.push_fallibly(0)?;
    Ok(value)
}
