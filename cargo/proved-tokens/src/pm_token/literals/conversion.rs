// Made from crates/pm_token/src/literals/conversion.rt by dev/erase: change that file, not this one.
//! The errors of a literal that has no value.

use crate::literal_escaper::EscapeError;
use crate::shim::alloc::{AllocError, AllocFailed};
use crate::shim::fmt;

/// The reason why a literal's value was not returned.
#[derive(Debug, PartialEq, Eq)]
#[non_exhaustive]
pub enum ConversionErrorKind {
    /// The content has a syntax error; this is the last one, and warnings don't count. `"a` CR LF `b"` gives
    /// `BareCarriageReturn`.
    FailedToUnescape(EscapeError),
    /// The literal is of another kind than the call reads, or it has a suffix: `1`, or `"a"s`.
    InvalidLiteralKind,
    /// Memory ran out.
    Memory(AllocError),
}

impl fmt::Display for ConversionErrorKind {
    fn fmt<W: fmt::Write>(&self, f: &mut fmt::Formatter<W>) -> fmt::Result {
        match self {
            ConversionErrorKind::FailedToUnescape(_) => f.write_str("cannot unescape the literal"),
            ConversionErrorKind::InvalidLiteralKind => {
                f.write_str("the literal is of another kind or has a suffix")
            }
            ConversionErrorKind::Memory(_) => f.write_str("no memory"),
        }
    }
}

crate::shim::display!(ConversionErrorKind);

impl From<EscapeError> for ConversionErrorKind {
    fn from(fault: EscapeError) -> ConversionErrorKind {
        ConversionErrorKind::FailedToUnescape(fault)
    }
}

impl From<AllocError> for ConversionErrorKind {
    fn from(error: AllocError) -> ConversionErrorKind {
        ConversionErrorKind::Memory(error)
    }
}

impl<T> From<AllocFailed<T>> for ConversionErrorKind {
    fn from(error: AllocFailed<T>) -> ConversionErrorKind {
        ConversionErrorKind::Memory(AllocError::from(error))
    }
}
