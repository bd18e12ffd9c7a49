// Made from crates/pm_span/src/spans.rt by dev/erase: change that file, not this one.
//! Spans: where tokens are.

use crate::shim::prelude::GrowText;

use crate::shim::fmt;

/// Where a token is: the positions from `lo` to `hi` in a source map, in characters.
#[derive(Clone, Copy)]
pub struct Span {
    lo: u32,
    hi: u32,
}

impl Span {
    /// Returns the span 0..0 for tokens that were not read from a text. It is in the empty file 0, which every map
    /// holds.
    ///
    /// # Contract
    ///
    /// - `ensures value`: <code>result ≡ [nowhere]</code>
    /// - `ensures held`: <code>(map : [Files]) → [Holds] map result</code>
    ///
    /// [nowhere]: crate::contracts#pm_span.Extent.nowhere
    /// [Files]: crate::contracts#pm_span.Files.Files
    /// [Holds]: crate::contracts#pm_span.Files.Holds
    pub fn call_site() -> Span
    {
        Span { lo: 0, hi: 0 }
    }

    /// Returns the span 0..0, as [`call_site`](Span::call_site) does. In a compiler it is for names with mixed
    /// hygiene.
    ///
    /// # Contract
    ///
    /// - `ensures value`: <code>result ≡ [nowhere]</code>
    /// - `ensures held`: <code>(map : [Files]) → [Holds] map result</code>
    ///
    /// [nowhere]: crate::contracts#pm_span.Extent.nowhere
    /// [Files]: crate::contracts#pm_span.Files.Files
    /// [Holds]: crate::contracts#pm_span.Files.Holds
    pub fn mixed_site() -> Span
    {
        Span::call_site()
    }

    /// Returns the span 0..0, as [`call_site`](Span::call_site) does. In a compiler it is for names that resolve
    /// where the macro is defined.
    ///
    /// # Contract
    ///
    /// - `ensures value`: <code>result ≡ [nowhere]</code>
    /// - `ensures held`: <code>(map : [Files]) → [Holds] map result</code>
    ///
    /// [nowhere]: crate::contracts#pm_span.Extent.nowhere
    /// [Files]: crate::contracts#pm_span.Files.Files
    /// [Holds]: crate::contracts#pm_span.Files.Holds
    pub fn def_site() -> Span
    {
        Span::mixed_site()
    }

    /// Returns this span, unchanged.
    ///
    /// In a compiler it would resolve names as the other span does. No names are resolved here: 1..2 resolved at
    /// 3..4 is 1..2.
    ///
    /// # Contract
    ///
    /// - `ensures`: <code>result ≡ self</code>
    pub fn resolved_at(self, _other: Span) -> Span
    {
        // A span has positions alone.
        self
    }

    /// Returns the other span, unchanged.
    ///
    /// In a compiler it would resolve names as this span does. No names are resolved here: 1..2 located at 3..4 is
    /// 3..4.
    ///
    /// # Contract
    ///
    /// - `ensures`: <code>result ≡ other</code>
    pub fn located_at(self, other: Span) -> Span
    {
        // Nothing of this span is kept.
        other
    }

    /// Returns `None`, because no text comes from a file on disk here. In a compiler it is the path of that file.
    ///
    /// # Contract
    ///
    /// - `ensures`: <code>result ≡ [None]</code>
    ///
    /// [None]: crate::contracts#std.None
    pub fn local_file(self) -> Option<String>
    {
        None
    }

    pub(crate) fn new(lo: u32, hi: u32) -> Span
    {
        Span { lo, hi }
    }

    /// Returns the positions where the span begins and ends.
    pub(crate) fn bounds(self) -> (u32, u32)
    {
        (self.lo, self.hi)
    }

    /// Returns whether both spans have the same positions. There is no `==` for spans, as in proc-macro2.
    ///
    /// # Contract
    ///
    /// - `ensures value`: <code>result ≡ [extent_eq] self.now other.now</code>
    /// - `ensures same`: <code>[IsTrue] result ↔ (self.now ≡ other.now)</code>
    ///
    /// [extent_eq]: crate::contracts#pm_span.Extent.extent_eq
    /// [IsTrue]: crate::contracts#std.IsTrue
    pub fn eq(&self, other: &Span) -> bool
    {
        self.lo == other.lo && self.hi == other.hi
    }
}

/// Shows the positions, in characters, as `bytes(1..2)`.
impl fmt::Debug for Span {
    fn fmt(&self, f: &mut core::fmt::Formatter<'_>) -> fmt::Result {
        let lo = self.lo;
        let hi = self.hi;
        write!(f, "bytes({lo}..{hi})")
    }
}
