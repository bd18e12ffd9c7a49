// Made from crates/relayout/src/errors.rt by dev/erase: change that file, not this one.
//! The error of the calls of this crate.

use crate::shim::alloc::AllocError;
use crate::shim::fmt;

/// Why `relayout`, `with_doc_comments` or `with_any_doc_comments` returned no text.
#[derive(Debug, PartialEq, Eq)]
#[non_exhaustive]
pub enum RelayoutError {
    /// No pieces cover the text: somewhere in it no piece begins.
    NoPiece,
    /// Memory ran out.
    Memory(AllocError),
}

impl fmt::Display for RelayoutError {
    fn fmt<W: fmt::Write>(&self, f: &mut fmt::Formatter<W>) -> fmt::Result {
        match self {
            RelayoutError::NoPiece => f.write_str("cannot split the text into tokens"),
            RelayoutError::Memory(_) => f.write_str("no memory"),
        }
    }
}

crate::shim::display!(RelayoutError);

impl From<AllocError> for RelayoutError {
    fn from(error: AllocError) -> RelayoutError {
        RelayoutError::Memory(error)
    }
}
