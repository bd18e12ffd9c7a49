// Made from crates/pm_token/src/literals/subspan.rt by dev/erase: change that file, not this one.
//! Spans of parts of literals.

use crate::pm_token::literals::Literal;
use crate::pm_span::Span;
use crate::pm_span::parts::{bounds, span_of};
use crate::shim::ops::Bound;

impl Literal {
    /// Returns the span of a part of the literal, between two bounds, or `None` if there is no such part
    /// (`subspan`). This allocates nothing.
    ///
    /// The bounds count characters, not bytes, from the start of the literal's span. An included start is the
    /// first character of the part, and an included end is its last one. An excluded start is the character
    /// before the part, and an excluded end is the one after it. An unbounded start or end is that of the
    /// literal's span.
    ///
    /// The result is `None` exactly if the part would end before it begins, or past the end of the literal's
    /// span. So a bound may be any number.
    ///
    /// If `0.1` is at 1..4, `Included(1)` to `Excluded(2)` gives 2..3, which is the `.`; `Included(1)` to
    /// `Excluded(4)` gives `None`.
    ///
    /// # Contract
    ///
    /// - `ensures`: <code>result ≡ [subspan] self.now.span start end</code>
    ///
    /// [subspan]: crate::contracts#pm_token.Subspan.subspan
    pub fn subspan(&self, start: Bound<usize>, end: Bound<usize>) -> Option<Span>
    {
        let (lo, hi) = bounds(self.span);
        let chars = (hi - lo) as usize;
        let start_chars = match start {
            Bound::Included(first) => first,
            Bound::Excluded(before) => before.checked_add(1)?,
            Bound::Unbounded => 0,
        };
        let end_chars = match end {
            Bound::Included(last) => last.checked_add(1)?,
            Bound::Excluded(after) => after,
            Bound::Unbounded => chars,
        };
        if start_chars <= end_chars && end_chars <= chars {
            Some(span_of(lo + start_chars as u32, lo + end_chars as u32))
        } else {
            None
        }
    }
}
