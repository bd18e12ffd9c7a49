//! Texts as they are written: their pieces with comments and white space, and what literals stand for.
//!
//! [`pieces`] gives each piece of a text, so that nothing of the text is left out. [`place_trees`] tells where its
//! trees are, and [`reprint`] is what its stream prints, with no stream built. The functions named `unescape` read
//! the content of a literal between its quotes. Those named `check` only look for errors in it.
//!
//! ```
//! use proved_tokens::text::{pieces, reprint, unescape_str, PieceKind};
//!
//! let mut walk = pieces("x += 1; // one");
//! let mut texts = Vec::new();
//! while let Some(placed) = walk.next_piece() {
//!     texts.push((placed.piece.kind, placed.text));
//! }
//! assert_eq!(walk.rest(), ""); // no fault
//! assert_eq!(texts.len(), 9); // white space and comments are pieces too
//! assert_eq!(texts[8], (PieceKind::Gap, "// one"));
//!
//! let items: Vec<_> = unescape_str(r"a\n\q").collect();
//! assert_eq!(items[1], (1..3, Ok('\n')));
//! assert!(items[2].1.is_err()); // no escape is written so
//!
//! assert_eq!(reprint("fn f(){}")?, "fn f () { }");
//! # Ok::<(), Box<dyn std::error::Error>>(())
//! ```
#[doc(inline)]
pub use crate::lexical::{
    is_mark, is_reserved, literal_at, name_at, past_white, piece_at, pieces, Piece, PieceKind, PieceWalk, PlacedPiece,
    Spaced,
};
#[doc(inline)]
pub use crate::literal_escaper::{
    check_for_errors, check_raw_byte_str, check_raw_c_str, check_raw_str, unescape_byte, unescape_byte_str,
    unescape_c_str, unescape_char, unescape_str, CheckForErrors, CheckRawByteStr, CheckRawCStr, CheckRawStr, MixedUnit,
    Mode, NonZeroChar, NonZeroU8, UnescapeByteStr, UnescapeCStr, UnescapeStr,
};
#[doc(inline)]
pub use crate::proc_macro2::token_stream::may_be_joint;
#[doc(inline)]
pub use crate::proc_macro2::{place_trees, reprint, Place, PlacedTree, TreeKind};
