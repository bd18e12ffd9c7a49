// Made from crates/outline/src/level.rt by dev/erase: change that file, not this one.
//! The part of a file that is open while its items are read.

use proved_tokens::pm_stream::TokenTree;
use proved_tokens::token_buffer::Cursor;

/// A file, or the braces of a declaration. Some of its items may have been read.
pub struct Level<'a> {
    /// The trees of the level. Almost all groups in them are empty.
    pub trees: Vec<TokenTree>,
    /// The number of trees that have been read.
    pub at: usize,
    /// The trees that are left, with all that is in their groups.
    pub rest: Cursor<'a>,
}
