// Made from crates/pm_token/src/errors.rt by dev/erase: change that file, not this one.
//! The errors of texts that can't be parsed.

use crate::pm_span::Span;
use crate::shim::alloc::{AllocError, AllocFailed};
use crate::shim::fmt;

/// A text that could not be read, with the span of its syntax error.
#[derive(Debug)]
pub struct LexError {
    span: Span,
}

impl LexError {
    pub(crate) fn at(span: Span) -> LexError
    {
        LexError { span }
    }

    /// Returns the span of the syntax error, in characters (`fault`).
    ///
    /// For a token stream the span is empty. It is before the character that can't be read, or before the closer
    /// that does not close the innermost open group. If a group is open at the end, the span is before the last
    /// opener without a closer. For a literal the span is 0..0, which is in no text that was read.
    ///
    /// # Contract
    ///
    /// - `ensures`: <code>result ≡ self.now</code>
    pub fn span(&self) -> Span
    {
        self.span
    }
}

impl PartialEq for LexError {
    /// Returns whether both errors have the same span.
    fn eq(&self, other: &LexError) -> bool {
        let LexError { span } = self;
        span.eq(&other.span)
    }
}

impl fmt::Display for LexError {
    fn fmt<W: fmt::Write>(&self, f: &mut fmt::Formatter<W>) -> fmt::Result {
        f.write_str("cannot parse string into token stream")
    }
}

crate::shim::display!(LexError);

/// The reason why a text was not parsed.
#[derive(Debug, PartialEq)]
#[non_exhaustive]
pub enum ParseError {
    /// The text has a syntax error, and is a file of the map now. The error of a stream has its span in that
    /// file; the error of a literal has the span 0..0.
    Lex(LexError),
    /// The text would end past the map's limit (`fits`). The map does not change.
    MapFull,
    /// Memory ran out. The map does not change.
    Memory(AllocError),
}

impl ParseError {
    /// Returns the span of a syntax error, as [`LexError::span`] does, or `None` for the other errors.
    ///
    /// # Contract
    ///
    /// - `ensures`: <code>result ≡ [fault_span] self.now</code>
    ///
    /// [fault_span]: crate::contracts#pm_token.Message.fault_span
    pub fn span(&self) -> Option<Span>
    {
        match self {
            ParseError::Lex(error) => Some(error.span()),
            ParseError::MapFull | ParseError::Memory(_) => None,
        }
    }
}

impl fmt::Display for ParseError {
    fn fmt<W: fmt::Write>(&self, f: &mut fmt::Formatter<W>) -> fmt::Result {
        match self {
            ParseError::Lex(error) => error.fmt(f),
            ParseError::MapFull => f.write_str("map full"),
            ParseError::Memory(_) => f.write_str("no memory"),
        }
    }
}

crate::shim::display!(ParseError);

impl From<AllocError> for ParseError {
    fn from(error: AllocError) -> ParseError {
        ParseError::Memory(error)
    }
}

impl<T> From<AllocFailed<T>> for ParseError {
    fn from(error: AllocFailed<T>) -> ParseError {
        ParseError::Memory(AllocError::from(error))
    }
}
