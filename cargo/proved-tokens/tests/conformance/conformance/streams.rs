// Made from crates/conformance/src/streams.rt by dev/erase: change that file, not this one.
//! The library's answer for the text of a stream.

use proved_tokens::shim::prelude::format;

use crate::conformance::answer::Answer;
use crate::conformance::spans::span_lines;
use proved_tokens::proc_macro2::{ParseError, SourceMap, TokenStream};

/// Returns the stream that the text parses to in a new map: as Debug shows it for `tree`, the spans of its trees for
/// `spans`, and otherwise as it is printed. For a text with a fault, returns the fault's line and column.
///
/// For `print`, `a+b` gives `a + b`, and `(]` gives the fault `1:1`.
pub fn stream_answer<'a>(
    asked: &'a str,
    text: &str,
) -> Result<Answer<'a>, ParseError> {
    let mut map = SourceMap::new();
    match TokenStream::from_str(text, &mut map) {
        Ok(stream) if asked == "tree" => Ok(Answer {
            kind: asked,
            answer_text: format!("{stream:?}")?,
        }),
        Ok(stream) if asked == "spans" => Ok(Answer {
            kind: asked,
            answer_text: span_lines(&stream, &map)?,
        }),
        Ok(stream) => Ok(Answer {
            kind: "print",
            answer_text: format!("{stream}")?,
        }),
        Err(ParseError::Lex(error)) => {
            let start = error.span().start(&map);
            Ok(Answer {
                kind: "fault",
                answer_text: format!("{}:{}", start.line, start.column)?,
            })
        }
        Err(error) => Err(error),
    }
}
