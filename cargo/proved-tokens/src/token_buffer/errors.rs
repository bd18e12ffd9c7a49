// Made from crates/token_buffer/src/errors.rt by dev/erase: change that file, not this one.
//! The errors of a buffer that can't be made.

use crate::pm_span::Span;
use crate::pm_token::ParseError;
use crate::shim::alloc::{AllocError, AllocFailed};
use crate::shim::fmt;

/// The reason why a buffer was not made.
#[derive(Debug, PartialEq)]
#[non_exhaustive]
pub enum BufferError {
    /// The text could not be read.
    Parse(ParseError),
    /// The text has more than 4294967295 bytes, or more than 4294967295 tokens.
    TooLong,
}

impl BufferError {
    /// Returns the span of a syntax error, as [`ParseError::span`] does, or `None` for the other errors.
    ///
    /// # Contract
    ///
    /// - `ensures`: <code>result ≡ [fault_span] self.now</code>
    ///
    /// [fault_span]: crate::contracts#token_buffer.Message.fault_span
    pub fn span(&self) -> Option<Span>
    {
        match self {
            BufferError::Parse(error) => error.span(),
            BufferError::TooLong => None,
        }
    }
}

impl fmt::Display for BufferError {
    fn fmt<W: fmt::Write>(&self, f: &mut fmt::Formatter<W>) -> fmt::Result {
        match self {
            BufferError::Parse(error) => error.fmt(f),
            BufferError::TooLong => f.write_str("text too long"),
        }
    }
}

crate::shim::display!(BufferError);

impl From<ParseError> for BufferError {
    fn from(error: ParseError) -> BufferError {
        BufferError::Parse(error)
    }
}

impl From<AllocError> for BufferError {
    fn from(error: AllocError) -> BufferError {
        BufferError::Parse(ParseError::Memory(error))
    }
}

impl<T> From<AllocFailed<T>> for BufferError {
    fn from(error: AllocFailed<T>) -> BufferError {
        BufferError::Parse(ParseError::Memory(AllocError::from(error)))
    }
}
