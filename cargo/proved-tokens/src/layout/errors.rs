// Made from crates/layout/src/errors.rt by dev/erase: change that file, not this one.
//! The error of `text_with` and `write_with`.

use crate::shim::alloc::AllocError;
use crate::shim::{fmt, io};

/// Why a stream is not written.
#[derive(Debug)]
#[non_exhaustive]
pub enum LayoutError {
    /// The stream isn't `well-spaced`, so no text reads back to it. Nothing is written.
    NotWellSpaced,
    /// Memory ran out.
    Memory(AllocError),
    /// The writer failed. A prefix of the text may have been written.
    Write(io::Error),
}

/// The kind of an error, which is what `==` compares.
#[derive(Clone, Copy, PartialEq, Eq)]
enum Kind {
    NotWellSpaced,
    Memory,
    Write(io::ErrorKind),
}

impl LayoutError {
    /// Returns the kind of the error, which includes the kind of a writer's error.
    fn kind(&self) -> Kind
    {
        match self {
            LayoutError::NotWellSpaced => Kind::NotWellSpaced,
            LayoutError::Memory(_) => Kind::Memory,
            LayoutError::Write(error) => Kind::Write(error.kind()),
        }
    }
}

impl PartialEq for LayoutError {
    /// Whether both errors are of the same kind, and their writers' errors too.
    fn eq(&self, other: &LayoutError) -> bool {
        self.kind() == other.kind()
    }
}

impl fmt::Display for LayoutError {
    fn fmt<W: fmt::Write>(&self, f: &mut fmt::Formatter<W>) -> fmt::Result {
        match self {
            LayoutError::NotWellSpaced => f.write_str("no text parses back to this stream"),
            LayoutError::Memory(_) => f.write_str("no memory"),
            LayoutError::Write(_) => f.write_str("cannot write the text"),
        }
    }
}

crate::shim::display!(LayoutError);

impl From<AllocError> for LayoutError {
    fn from(error: AllocError) -> LayoutError {
        LayoutError::Memory(error)
    }
}
