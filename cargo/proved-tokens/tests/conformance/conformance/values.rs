// Made from crates/conformance/src/values.rt by dev/erase: change that file, not this one.
//! The library's answer for a value.

use proved_tokens::shim::prelude::format;

use crate::conformance::answer::Answer;
use proved_tokens::proc_macro2::Literal;
use proved_tokens::shim::alloc::AllocError;

/// Returns the text of the literal that this call makes of the value. If it makes none, the answer is `refused`.
///
/// For `c_string`, `a` and a quote give `c"a\""`.
pub fn value_answer<'a>(
    asked: &'a str,
    value: &str,
) -> Result<Answer<'a>, AllocError> {
    match literal_of(asked, value)? {
        Some(literal) => Ok(Answer {
            kind: asked,
            answer_text: format!("{literal}")?,
        }),
        None => Ok(Answer::no_literal()),
    }
}

/// Returns the literal that this call makes of the text, of its first character, of its first byte, or of its bytes.
/// Returns `None` if the text has no such character or byte, and for a C string with NUL.
fn literal_of(call: &str, value: &str) -> Result<Option<Literal>, AllocError> {
    let bytes = value.as_bytes();
    Ok(match call {
        "string" => Some(Literal::string(value)?),
        "character" => match value.chars().next() {
            Some(c) => Some(Literal::character(c)?),
            None => None,
        },
        "byte_character" => match bytes.first() {
            Some(&byte) => Some(Literal::byte_character(byte)?),
            None => None,
        },
        "byte_string" => Some(Literal::byte_string(bytes)?),
        "c_string" if has_no_zero(bytes) => Some(Literal::c_string(bytes)?),
        _ => None,
    })
}

/// Whether no byte is zero.
fn has_no_zero(bytes: &[u8]) -> bool
{
    bytes.iter().all(|&byte| byte != 0)
}
