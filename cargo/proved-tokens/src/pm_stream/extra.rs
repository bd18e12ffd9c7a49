// Made from crates/pm_stream/src/extra.rt by dev/erase: change that file, not this one.
//! The spans of a group's delimiters.

use crate::pm_stream::stream::Group;
use crate::pm_span::Span;
use crate::pm_span::parts::{bounds, span_of};
use crate::shim::fmt;

/// The span of a group, from which the spans of its delimiters are computed.
///
/// The spans of the delimiters are the first and the last character of the group's span, whatever its delimiter is. A
/// group that was read from `(x)` at 1..4 opens at 1..2 and closes at 3..4.
#[derive(Clone, Copy)]
pub struct DelimSpan {
    span: Span,
}

impl DelimSpan {
    /// Returns the span of the whole group, including its delimiters.
    ///
    /// # Contract
    ///
    /// - `ensures`: <code>result ≡ self.now</code>
    pub fn join(&self) -> Span
    {
        self.span
    }

    /// Returns the span of the opening delimiter (`open-span`): the first character of the group's span.
    ///
    /// The result is empty if the group's span is empty. For 1..4 it is 1..2, and for 0..0 it is 0..0.
    ///
    /// # Contract
    ///
    /// - `ensures`: <code>result ≡ [opening_span] self.now</code>
    ///
    /// [opening_span]: crate::contracts#pm_stream.DelimSpan.opening_span
    pub fn open(&self) -> Span
    {
        let (lo, hi) = bounds(self.span);
        span_of(lo, hi.min(lo.saturating_add(1)))
    }

    /// Returns the span of the closing delimiter (`close-span`): the last character of the group's span.
    ///
    /// The result is empty if the group's span is empty. For 1..4 it is 3..4, and for 0..0 it is 0..0.
    ///
    /// # Contract
    ///
    /// - `ensures`: <code>result ≡ [closing_span] self.now</code>
    ///
    /// [closing_span]: crate::contracts#pm_stream.DelimSpan.closing_span
    pub fn close(&self) -> Span
    {
        let (lo, hi) = bounds(self.span);
        span_of(lo.max(hi.saturating_sub(1)), hi)
    }
}

/// Shows the span of the whole group, as `bytes(1..4)`.
impl fmt::Debug for DelimSpan {
    fn fmt(&self, f: &mut core::fmt::Formatter<'_>) -> fmt::Result {
        self.join().fmt(f)
    }
}

impl Group {
    /// Returns the span of the opening delimiter (`open-span`): the first character of the group's span.
    ///
    /// The result is empty if the group's span is empty. For 1..4 it is 1..2, and for 0..0 it is 0..0.
    ///
    /// # Contract
    ///
    /// - `ensures`: <code>result ≡ [opening_span] self.now.span</code>
    ///
    /// [opening_span]: crate::contracts#pm_stream.DelimSpan.opening_span
    pub fn span_open(&self) -> Span
    {
        self.delim_span().open()
    }

    /// Returns the span of the closing delimiter (`close-span`): the last character of the group's span.
    ///
    /// The result is empty if the group's span is empty. For 1..4 it is 3..4, and for 0..0 it is 0..0.
    ///
    /// # Contract
    ///
    /// - `ensures`: <code>result ≡ [closing_span] self.now.span</code>
    ///
    /// [closing_span]: crate::contracts#pm_stream.DelimSpan.closing_span
    pub fn span_close(&self) -> Span
    {
        self.delim_span().close()
    }

    /// Returns the span of the group, together with those of its delimiters.
    ///
    /// # Contract
    ///
    /// - `ensures`: <code>result ≡ self.now.span</code>
    pub fn delim_span(&self) -> DelimSpan
    {
        DelimSpan { span: self.span() }
    }
}
