//! Why a job ends early: what the derives of `crates/workloads/src/fails.rt` write.

use proved_tokens::proc_macro2::{IdentError, ParseError};
use proved_tokens::quoting::{QuoteError, TemplateError};
use proved_tokens::shim::alloc::{AllocError, AllocFailed};
use proved_tokens::token_buffer::BufferError;
use std::io;

/// Why a job ends early.
#[derive(Debug)]
pub enum Fail {
    /// The words name no job.
    Usage,
    /// The items aren't UTF-8.
    NotUtf8,
    /// There are no items.
    NoItems,
    /// A text has no pieces, or no reason for its fault.
    Refused,
    /// The input was not read, or the digest not written.
    Io(io::Error),
    /// A text was not parsed.
    Text(ParseError),
    /// The tokens of a text were not listed.
    Buffer(BufferError),
    /// A name is none.
    Name(IdentError),
    /// A quote has a fault.
    Quote(QuoteError),
    /// A template has a fault.
    Template(TemplateError),
    /// Memory ran out.
    Memory(AllocError),
}

macro_rules! from {
    ($($variant:ident $error:ty,)*) => {$(
        impl From<$error> for Fail {
            fn from(error: $error) -> Fail {
                Fail::$variant(error)
            }
        }
    )*};
}

from! {
    Io io::Error,
    Text ParseError,
    Buffer BufferError,
    Name IdentError,
    Quote QuoteError,
    Template TemplateError,
    Memory AllocError,
}

// Neither error has a value here.
#[allow(unreachable_code)]
impl<T> From<AllocFailed<T>> for Fail {
    fn from(error: AllocFailed<T>) -> Fail {
        Fail::Memory(AllocError::from(error))
    }
}
