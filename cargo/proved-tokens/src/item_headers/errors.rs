// Made from crates/item_headers/src/errors.rt by dev/erase: change that file, not this one.
//! The error of the calls.

use crate::declarations::Fault;
use crate::proc_macro2::{IdentError, Span};
use crate::quoting::QuoteError;
use crate::shim::alloc::AllocError;
use crate::shim::fmt;

/// The error of a call: the item's parameters or predicates are wrong, or memory ran out.
#[derive(Debug, PartialEq)]
#[non_exhaustive]
pub enum HeaderError {
    /// The generic parameters or the where clause are not those of the grammar. The field `at` counts trees from the
    /// parameter or predicate that does not fit. If the brackets or the `where` do not fit, it counts from the first
    /// tree of the generic parameters or of the where clause.
    Fault(Fault),
    /// A keyword or a mark could not be written, because memory ran out.
    Keyword(IdentError),
    /// Memory ran out. No call returns any other error of a quote.
    Quote(QuoteError),
}

impl HeaderError {
    /// Returns the span of the tree that does not fit.
    ///
    /// Returns `None` if trees are missing at the end, and for any error but `Fault`.
    ///
    /// # Contract
    ///
    /// - `ensures`: <code>result ≡ [header_span] self.now</code>
    ///
    /// [header_span]: crate::contracts#item_headers.Message.header_span
    pub fn span(&self) -> Option<Span>
    {
        match self {
            HeaderError::Fault(fault) => fault.span(),
            HeaderError::Keyword(_) | HeaderError::Quote(_) => None,
        }
    }
}

impl fmt::Display for HeaderError {
    fn fmt<W: fmt::Write>(&self, f: &mut fmt::Formatter<W>) -> fmt::Result {
        match self {
            HeaderError::Fault(fault) => fault.fmt(f),
            HeaderError::Keyword(error) => error.fmt(f),
            HeaderError::Quote(error) => error.fmt(f),
        }
    }
}

crate::shim::display!(HeaderError);

impl From<Fault> for HeaderError {
    fn from(fault: Fault) -> HeaderError {
        HeaderError::Fault(fault)
    }
}

impl From<IdentError> for HeaderError {
    fn from(error: IdentError) -> HeaderError {
        HeaderError::Keyword(error)
    }
}

impl From<QuoteError> for HeaderError {
    fn from(error: QuoteError) -> HeaderError {
        HeaderError::Quote(error)
    }
}

impl From<AllocError> for HeaderError {
    fn from(error: AllocError) -> HeaderError {
        HeaderError::Quote(QuoteError::Memory(error))
    }
}
