// Made from crates/relayout/src/lib.rt by dev/erase: change that file, not this one.
//! Changes the white space between the tokens and comments of a text.
//!
//! `relayout` replaces white space run by run, as its caller chooses, and keeps everything else. Whatever is chosen,
//! the tokens and the comments stay the same.
//!
//! The pieces of a text are its tokens, delimiters, comments and white characters. They cover the text if they join to
//! all of it.

mod comments;
mod errors;
mod forms;
pub mod laws;
mod literals;
mod relaying;
mod white;

pub use comments::{with_any_doc_comments, with_doc_comments};
pub use errors::RelayoutError;
pub use relaying::relayout;
pub use white::White;
