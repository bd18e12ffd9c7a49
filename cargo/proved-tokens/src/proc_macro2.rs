// Made from crates/proc_macro2/src/lib.rt by dev/erase: change that file, not this one.
//! Rust source text as token trees, which a program can read, walk through, build and print.
//!
//! A word in backquotes that names no item, such as `well-spaced`, is the label of a rule. `docs/GRAMMAR.md`
//! defines all rules.

pub mod laws;

pub use crate::lexical::{Piece, PieceKind, PieceWalk, PlacedPiece, pieces};
pub use crate::literal_escaper::{EscapeError, NonZeroChar, NonZeroU8};
pub use crate::pm_span::{LineColumn, SourceMap, Span};
pub use crate::pm_stream::placing::{Place, PlacedTree, TreeKind, place_trees};
pub use crate::pm_stream::reprinting::reprint;
pub use crate::pm_stream::{Group, TokenStream, TokenTree};
pub use crate::pm_token::{
    ConversionErrorKind, Delimiter, Ident, IdentError, LexError, Literal, ParseError, Punct,
    Spacing,
};

/// The span of a group with those of its delimiters.
pub mod extra {
    pub use crate::pm_stream::extra::DelimSpan;
}

/// The characters and bytes that the contents of literals mean, and the errors in them.
pub mod rustc_literal_escaper {
    pub use crate::literal_escaper::{
        CheckForErrors, CheckRawByteStr, CheckRawCStr, CheckRawStr, EscapeError, MixedUnit, Mode,
        NonZeroChar, NonZeroU8, UnescapeByteStr, UnescapeCStr, UnescapeStr, check_for_errors,
        check_raw_byte_str, check_raw_c_str, check_raw_str, unescape_byte, unescape_byte_str,
        unescape_c_str, unescape_char, unescape_str,
    };
}

/// Streams of token trees, the iterator over a stream's trees, and walks over all trees with those inside of
/// groups.
pub mod token_stream {
    pub use crate::pm_stream::token_stream::{IntoIter, TokenStream};
    pub use crate::pm_stream::{Step, Steps, Walk, may_be_joint};
}
