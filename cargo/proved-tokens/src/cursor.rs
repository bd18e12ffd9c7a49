//! The tokens of a text without trees, and cursors over them, by the feature `cursor`.
//!
//! A [`TokenBuffer`] holds the tokens of a text in one list. A [`Cursor`] into it is copied freely, and gives each
//! token with the text that it has in the source and the cursor after it.
//!
//! ```
//! use proved_tokens::cursor::TokenBuffer;
//!
//! let buffer = TokenBuffer::new("f(x, 1)")?;
//! let (name, after) = buffer.begin().ident().ok_or("no name")?;
//! assert_eq!(name.text, "f");
//! let (_, inside, end) = after.any_group().ok_or("no group")?;
//! assert!(end.eof() && inside.ident().is_some());
//! # Ok::<(), Box<dyn std::error::Error>>(())
//! ```
#[doc(inline)]
pub use crate::token_buffer::{Cursor, LiteralText, Name, TokenBuffer, TokenText};
