//! Streams printed for people.
use crate::{to_proved, NoToken, Spans};
use proved_tokens::pretty_printer::to_pretty_string;
use proved_tokens::quoting::QuoteError;
use proved_tokens::relayout::{with_any_doc_comments, RelayoutError};
use std::error::Error;
use std::fmt::{self, Display};

/// The stream's tokens as text for people: a statement or an item a line, blocks and long lists over several lines.
///
/// The text reads back to the stream, up to spans, the spacing of marks, and the spelling of doc literals. A doc
/// attribute that begins a line is written as a doc comment exactly if a comment reads back to the value of its
/// literal: as `///` or `//!`, or as `/**..*/` or `/*!..*/` if no comment of one line does. The literal may be spelled
/// in any way, as `r" Of x."`, which the compiler makes of `/// Of x.` in a macro.
///
/// ```
/// let code: proc_macro2::TokenStream = "#[doc = r\" Of x.\"]fn f(x:u8)->u8{match x{0=>1,_=>x}}".parse()?;
/// let text = "/// Of x.\nfn f(x: u8) -> u8 {\n    match x {\n        0 => 1,\n        _ => x\n    }\n}\n";
/// assert_eq!(proved_macros::pretty(&code)?, text);
/// # Ok::<(), Box<dyn std::error::Error>>(())
/// ```
///
/// # Errors
///
/// `NoToken` where a token isn't one of the grammar of `proved-tokens`, and `Quote` where no spacing of the marks lets
/// the stream come back from a text: a group without delimiters, as macros by example make, or a `'` with nothing after
/// it.
pub fn pretty(stream: &proc_macro2::TokenStream) -> Result<String, PrettyError> {
    let stream = to_proved(stream, &mut Spans::new()).map_err(PrettyError::NoToken)?;
    let text = to_pretty_string(&stream).map_err(PrettyError::Quote)?;
    match with_any_doc_comments(text.as_str()) {
        Ok(text) => Ok(text),
        Err(RelayoutError::Memory(error)) => Err(PrettyError::Quote(QuoteError::Memory(error))),
        Err(_) => unreachable!("the text reads back"),
    }
}

/// Why a stream isn't printed.
#[derive(Debug)]
pub enum PrettyError {
    /// This token isn't one of the grammar.
    NoToken(NoToken),
    /// The stream comes back from no text.
    Quote(QuoteError),
}

impl Display for PrettyError {
    fn fmt(&self, f: &mut fmt::Formatter) -> fmt::Result {
        match self {
            PrettyError::NoToken(error) => Display::fmt(error, f),
            PrettyError::Quote(error) => Display::fmt(error, f),
        }
    }
}

impl Error for PrettyError {}
