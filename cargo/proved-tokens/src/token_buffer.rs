// Made from crates/token_buffer/src/lib.rt by dev/erase: change that file, not this one.
//! The tokens of a text in one flat buffer, and cursors over them.
//!
//! A buffer takes 16 bytes a token, and reserves room for one token per four bytes of text. The text of each token
//! stays in the source. A cursor is cheap to copy: a reader goes on with a new cursor, and backs up with an old
//! one.
//!
//! A word in backquotes that names no item, such as `parses-to`, is the label of a rule. `docs/GRAMMAR.md` defines
//! all rules.

mod arguments;
mod buffer;
mod compared;
mod cursor;
mod display;
mod entry;
pub mod errors;
mod filling;
mod part;
mod string;
mod trees;

pub use buffer::TokenBuffer;
pub use cursor::{Cursor, LiteralText, Name, TokenText};
pub use errors::BufferError;
