// Made from crates/lexical/src/parts.rt by dev/erase: change that file, not this one.
//! The steps of the lexer, for crates that say why no piece begins somewhere or go over all pieces. They are not meant
//! for users.

pub use crate::lexical::bytes::{Base, Class, one, skip};
pub use crate::lexical::class::{PieceStart, piece_start_of};
pub use crate::lexical::comments::skip_comment;
pub use crate::lexical::cursor::TextCursor;
pub use crate::lexical::identifiers::name;
pub use crate::lexical::quoted::StringKind;
pub use crate::lexical::search::{skip_to, skip_to_either};
pub use crate::lexical::skip::one as one_that;
pub use crate::lexical::text::{before, begins};
