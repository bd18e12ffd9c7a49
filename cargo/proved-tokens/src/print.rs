//! Streams and texts on lines for people, by the feature `print`.
//!
//! [`to_pretty_string`] prints a stream on lines. [`text_with`] prints one with white space that a [`Chooser`] chooses,
//! and puts a space where the tokens need one. [`relayout`] changes the white space of a text, whose comments stay, and
//! [`with_doc_comments`] writes doc attributes as doc comments. What they give is read as the same tokens.
//! [`with_any_doc_comments`] also does so for docs of several lines and for literals such as `r" text"`, and keeps all
//! tokens except for the spelling of these literals.
//!
//! ```
//! # #[cfg(feature = "print")] {
//! use proved_tokens::print::{relayout, text_with, to_pretty_string, Chooser, Gap, GapContext, White};
//! use proved_tokens::TokenStream;
//!
//! let stream: TokenStream = "fn f(x:u8)->u8{x+1}".parse()?;
//! assert_eq!(to_pretty_string(&stream)?, "fn f(x: u8) -> u8 {\n    x + 1\n}\n");
//!
//! struct Tight;
//!
//! impl Chooser for Tight {
//!     fn gap(&mut self, _: GapContext<'_>) -> Gap {
//!         Gap::Nothing
//!     }
//! }
//!
//! let stream: TokenStream = "let x = y + 1 ;".parse()?;
//! assert_eq!(text_with(&stream, &mut Tight)?, "let x=y+1;");
//! assert_eq!(relayout("a  + /* b */ c", &[White::Space])?, "a + /* b */ c");
//! # }
//! # Ok::<(), Box<dyn std::error::Error>>(())
//! ```
#[cfg(feature = "layout")]
#[doc(inline)]
pub use crate::layout::{text_with, write_with, Chooser, Gap, GapContext};
#[cfg(feature = "pretty_printer")]
#[doc(inline)]
pub use crate::pretty_printer::to_pretty_string;
#[cfg(feature = "relayout")]
#[doc(inline)]
pub use crate::relayout::{relayout, with_any_doc_comments, with_doc_comments, White};
