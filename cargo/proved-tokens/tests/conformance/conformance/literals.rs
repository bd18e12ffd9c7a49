// Made from crates/conformance/src/literals.rt by dev/erase: change that file, not this one.
//! The library's answer for the text of a literal.

use proved_tokens::shim::prelude::format;

use crate::conformance::answer::Answer;
use proved_tokens::proc_macro2::{ConversionErrorKind, Literal, ParseError, SourceMap};
use proved_tokens::shim::alloc::AllocError;

/// Returns the printed literal that the text is, or its value if the question is about the value. For a text that is no
/// literal the answer is `refused`.
///
/// For `str_value`, `"ab"` gives `6162`, `1` gives `InvalidLiteralKind`, and the answer for `- 1` is `refused`.
pub fn literal_answer<'a>(
    asked: &'a str,
    text: &str,
) -> Result<Answer<'a>, ParseError> {
    let mut map = SourceMap::new();
    let literal = match Literal::from_str(text, &mut map) {
        Ok(literal) => literal,
        Err(ParseError::Lex(_)) => return Ok(Answer::no_literal()),
        Err(error) => return Err(error),
    };
    let (kind, answer_text) = match asked {
        "str_value" => (
            asked,
            hex(literal.str_value().map(String::into_bytes))?,
        ),
        "byte_str_value" => (asked, hex(literal.byte_str_value())?),
        "cstr_value" => (asked, hex(literal.cstr_value())?),
        _ => ("literal", format!("{literal}")?),
    };
    Ok(Answer { kind, answer_text })
}

/// Returns the bytes of a value in hex, or the name of the error. Fails if memory runs out.
fn hex(value: Result<Vec<u8>, ConversionErrorKind>) -> Result<String, AllocError> {
    match value {
        Ok(bytes) => proved_tokens::shim::hex::encode(bytes.as_slice()),
        Err(ConversionErrorKind::Memory(error)) => Err(error),
        Err(error) => format!("{error:?}"),
    }
}
