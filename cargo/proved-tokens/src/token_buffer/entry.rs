// Made from crates/token_buffer/src/entry.rt by dev/erase: change that file, not this one.
//! The entries of a buffer.

use crate::pm_token::Delimiter;

/// A token, or the start or the end of a group. `lo` and `hi` are byte offsets in the text; `at` and `end` are
/// positions, in characters.
#[derive(Clone, Copy)]
pub enum Entry {
    /// An identifier. Its name, without `r#`, is the text from `lo` to `hi`.
    Name {
        raw: bool,
        lo: u32,
        hi: u32,
        at: u32,
    },
    /// A mark.
    Mark {
        joint: bool,
        mark: char,
        at: u32,
        end: u32,
    },
    /// A literal.
    Literal {
        lo: u32,
        hi: u32,
        at: u32,
    },
    /// The start of a group, with the number of entries inside.
    Open {
        delimiter: Delimiter,
        at: u32,
        count: u32,
    },
    /// The end of a group.
    Close {
        delimiter: Delimiter,
        end: u32,
    },
    /// The identifier `doc` of a doc comment.
    DocName {
        at: u32,
        end: u32,
    },
    /// The literal of a doc comment, whose text is from `lo` to `hi`. The comment has `closing` more characters
    /// after it.
    DocText {
        closing: u8,
        lo: u32,
        hi: u32,
        at: u32,
    },
}
