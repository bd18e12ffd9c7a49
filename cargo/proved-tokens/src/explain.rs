// Made from crates/explain/src/lib.rt by dev/erase: change that file, not this one.
//! Why a text doesn't parse, and where.
//!
//! `explain` returns a [`Reason`] and the part of the text that is wrong, by its bytes and its span. There are 19
//! reasons. Each has its own definition in `specs/Reason.antt`, in the words of the grammar's rules and of the
//! escaper's items.
//!
//! It is proved that the reason holds at the fault, and that no other reason explains the text. A reason holds with one
//! wrong part only, and never where a piece begins ([`laws`]). `None` is returned only for a text that parses. The
//! openers in the result are still open at the error. Each has its delimiter, bytes and span.
//!
//! [`advice`] returns other parts of the text that help to fix an error, as defined in `specs/Hint.antt`. For an
//! unclosed comment, it is the comment inside that ended last. For an unclosed raw string, it is the quote that came
//! nearest to ending the string.

mod comment_hints;
mod contents;
mod explained;
mod explaining;
mod hints;
pub mod laws;
mod letters;
mod numbers;
mod quote_hints;
mod quotes;
mod raw_contents;
mod reason;
mod single_contents;
mod strings;
mod stuck;
mod trouble;
mod words;

pub use crate::explain::explained::{ExplainError, Explained, Opener, Stretch};
pub use crate::explain::explaining::explain;
pub use crate::explain::hints::{Hint, advice};
pub use crate::explain::reason::Reason;
