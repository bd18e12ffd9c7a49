// Made from crates/explain/src/explained.rt by dev/erase: change that file, not this one.
//! The explanation of why a text doesn't parse.

use crate::explain::reason::Reason;
use crate::pm_span::Span;
use crate::pm_token::Delimiter;
use crate::shim::alloc::AllocError;
use crate::shim::fmt;

/// A part of a text, from one byte offset to another.
#[derive(Clone, Copy)]
pub struct Stretch {
    /// The byte offset in the text at which the part begins.
    pub start: usize,
    /// The byte offset in the text at which the part ends. The byte at this offset is not in the part.
    pub end: usize,
    /// The span of the part, in a new map whose first file is the text.
    pub span: Span,
}

/// An opening delimiter that no closer matches. It is one character of the text.
#[derive(Clone, Copy)]
pub struct Opener {
    /// The kind of delimiter.
    pub delimiter: Delimiter,
    /// Where the opener is in the text.
    pub at: Stretch,
}

/// Why a text doesn't parse, and where.
///
/// The fault of a text is where no token, comment or white space can begin, or where a delimiter has no match. The part
/// of the text that is wrong may begin later. For `0b12` the fault is at the `0`, since no number begins there. But
/// only the `2` is wrong, because it is no binary digit. So `before` is `0b1`, and `at` is `2`.
pub struct Explained {
    /// The reason why the text doesn't parse.
    pub reason: Reason,
    /// The text from the fault up to `at`. It is empty if the wrong part begins at the fault.
    pub before: Stretch,
    /// The part of the text that is wrong.
    pub at: Stretch,
    /// The innermost opener that is still open at the error, if there is one. For a mismatched closer, it is the opener
    /// that the closer doesn't match. For an unclosed opener, it is that opener.
    pub innermost: Option<Opener>,
    /// The other openers that are still open at the error. The innermost of them is last.
    pub outer: Vec<Opener>,
}

/// Why [`explain`](crate::explain::explain) can't give an answer.
#[derive(Debug, PartialEq, Eq)]
#[non_exhaustive]
pub enum ExplainError {
    /// The text doesn't fit a new map.
    MapFull,
    /// Memory ran out.
    Memory(AllocError),
}

impl fmt::Display for ExplainError {
    fn fmt<W: fmt::Write>(&self, f: &mut fmt::Formatter<W>) -> fmt::Result {
        match self {
            ExplainError::MapFull => f.write_str("map full"),
            ExplainError::Memory(_) => f.write_str("no memory"),
        }
    }
}

crate::shim::display!(ExplainError);

impl From<AllocError> for ExplainError {
    fn from(error: AllocError) -> ExplainError {
        ExplainError::Memory(error)
    }
}
