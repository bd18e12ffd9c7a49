// Made from crates/lexical/src/lib.rt by dev/erase: change that file, not this one.
//! The lexer: it finds which piece of the grammar begins at a byte offset of a text.
//!
//! [`piece_at`] returns the piece at the start of a text, which is the rest of a source from some byte offset on. It
//! returns `None` if no piece begins there; at most one can. The rules are in docs/GRAMMAR.md; their exact definitions
//! are in `specs/`. A form is a relation between a piece and all the text after it.
//!
//! No call allocates memory. A call may read more of the text than the piece that it returns. If a `/*` or a string is
//! not closed, it reads to the end of the text. For a lone `'`, it reads the whole identifier after it.
//!
//! A rule is named by its label in backquotes, such as `block-comment`. `docs/GRAMMAR.md` lists all rules with their
//! definitions.

mod bytes;
mod class;
mod comments;
mod contents;
mod cursor;
mod docs;
mod escapes;
mod fast_path;
mod gaps;
mod identifiers;
pub mod laws;
mod lexer;
mod literals;
mod marks;
mod numbers;
pub mod parts;
pub mod piece;
mod quoted;
mod raw_strings;
mod search;
mod single_quotes;
mod skip;
mod text;
mod walk;
mod words;

pub use crate::lexical::gaps::past_white;
pub use crate::lexical::identifiers::is_reserved;
pub use crate::lexical::lexer::{literal_at, name_at, piece_at};
pub use crate::lexical::marks::is_mark;
pub use crate::lexical::piece::{Piece, PieceKind};
pub use crate::lexical::walk::{PieceWalk, PlacedPiece, Spaced, pieces};
