// Made from crates/conformance/src/answer.rt by dev/erase: change that file, not this one.
//! The library's answer to a question about a text.

use crate::conformance::contents::content_answer;
use crate::conformance::lists::list_answer;
use crate::conformance::literals::literal_answer;
use crate::conformance::streams::stream_answer;
use crate::conformance::values::value_answer;
use proved_tokens::proc_macro2::ParseError;

/// An answer of the library.
pub struct Answer<'a> {
    /// The kind of the answer: the question, or `refused` for a text that is no literal or has no value.
    pub kind: &'a str,
    /// The text in the last column of a line.
    pub answer_text: String,
}

impl<'a> Answer<'a> {
    /// Returns the answer for a text that is no literal, and for a value that no literal has.
    pub fn no_literal() -> Answer<'a> {
        Answer {
            kind: "refused",
            answer_text: String::new(),
        }
    }
}

/// Returns the library's answer to this question about the text. Returns `None` for an unknown question, and for a text
/// that is no list of trees although the question is about one.
///
/// Fails with `MapFull` if the text is too long for a new map, and with `Memory` if memory runs out. For `string` and
/// the text `"`, the answer is `string` and `"\""`.
pub fn answer_to<'a>(
    asked: &'a str,
    text: &str,
) -> Result<Option<Answer<'a>>, ParseError> {
    Ok(match asked {
        "print" | "tree" | "spans" | "fault" => Some(stream_answer(asked, text)?),
        "literal" | "refused" | "str_value" | "byte_str_value" | "cstr_value" => {
            Some(literal_answer(asked, text)?)
        }
        "string" | "character" | "byte_character" | "byte_string" | "c_string" => {
            Some(value_answer(asked, text)?)
        }
        "list" => list_answer(asked, text)?,
        _ => content_answer(asked, text)?,
    })
}
