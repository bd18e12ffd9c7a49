// Made from crates/explain/src/trouble.rt by dev/erase: change that file, not this one.
//! A reason, and the wrong part of the text as cursors.

use crate::explain::reason::Reason;
use crate::lexical::parts::TextCursor;

/// Why no piece begins at a cursor.
pub struct Trouble<'a> {
    /// The reason.
    pub reason: Reason,
    /// The cursor before the wrong part of the text.
    pub at: TextCursor<'a>,
    /// The cursor after the wrong part of the text.
    pub after: TextCursor<'a>,
}
