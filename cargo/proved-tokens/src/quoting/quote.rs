// Made from crates/quoting/src/quote.rt by dev/erase: change that file, not this one.
//! The type `Quote`, which builds a stream.

use crate::shim::prelude::TryClone;

use crate::quoting::errors::QuoteError;
use crate::quoting::faults::are_well_spaced;
use crate::quoting::laws;
use crate::quoting::respace::respace_marks;
use crate::proc_macro2::{TokenStream, TokenTree};
use crate::shim::alloc::AllocError;

/// A builder that collects trees and makes a stream of them. Contracts see it as the trees that were pushed, in order.
pub struct Quote {
    pushed: TokenStream,
}

impl Quote {
    /// Returns a quote without trees. It allocates nothing.
    ///
    /// # Contract
    ///
    /// - `ensures`: <code>result ≡ [nil]</code>
    ///
    /// [nil]: crate::contracts#pm_stream.Forest.nil
    pub fn new() -> Quote
    {
        Quote {
            pushed: TokenStream::new(),
        }
    }

    /// Adds the tree at the end; a negative literal becomes two trees (rule `split`).
    ///
    /// Fails if memory runs out. Then the quote is unchanged, and the tree is dropped.
    ///
    /// The literal `-3i32` is added as the mark `-`, Alone, and the literal `3i32`.
    ///
    /// # Contract
    ///
    /// - `ensures ok`: <code>[OnOk] result (self.new ≡ [chain] self.old ([split] tree))</code>
    /// - `ensures err`: <code>[OnErr] result (self.new ≡ self.old)</code>
    ///
    /// [OnOk]: crate::contracts#std.OnOk
    /// [chain]: crate::contracts#pm_stream.Forest.chain
    /// [split]: crate::contracts#pm_stream.Building.split
    /// [OnErr]: crate::contracts#std.OnErr
    pub fn push(&mut self, tree: TokenTree) -> Result<(), AllocError>
    {
        self.pushed.extend_trees([tree])
    }

    /// Adds the trees of the stream at the end.
    ///
    /// Fails if memory runs out. Then the quote is unchanged.
    ///
    /// # Contract
    ///
    /// - `ensures ok`: <code>[OnOk] result (self.new ≡ [chain] self.old stream)</code>
    /// - `ensures err`: <code>[OnErr] result (self.new ≡ self.old)</code>
    ///
    /// [OnOk]: crate::contracts#std.OnOk
    /// [chain]: crate::contracts#pm_stream.Forest.chain
    /// [OnErr]: crate::contracts#std.OnErr
    pub fn push_stream(&mut self, stream: TokenStream) -> Result<(), AllocError>
    {
        self.pushed.extend_streams([stream])
    }

    /// Returns the stream of exactly the trees that were pushed.
    ///
    /// Groups without delimiters, spacings and spans are kept. The call allocates nothing. Use it for the result of a
    /// macro, which the compiler reads as trees. The stream need not read back from its printed text; use `finish` if
    /// it must.
    ///
    /// For `+` Joint and the identifier `a`, the result is `+` Joint and `a`.
    ///
    /// # Contract
    ///
    /// - `ensures`: <code>result ≡ self</code>
    pub fn into_stream(self) -> TokenStream
    {
        let Quote { pushed, .. } = self;
        pushed
    }

    /// Returns what was pushed as a stream that reads back from its printed text.
    ///
    /// Marks are respaced (rule `respaced`). Each `'` is Joint. Any other mark keeps its spacing if `well-spaced`
    /// allows it, and is Alone otherwise. The quote is unchanged. The call takes time in proportion to the number of
    /// trees, and copies no list that needs no change.
    ///
    /// Fails with `NoneGroup` or `LoneQuote` at the first such error in reading order, where a group comes before its
    /// contents. Then no choice of spacings makes what was pushed well spaced. Fails with `Memory` if memory runs out.
    ///
    /// `+` Joint before the identifier `a` would print as `+a` and read back as `+` Alone. So the result is `+` Alone
    /// and `a`.
    ///
    /// # Contract
    ///
    /// - `ensures ok`: <code>[IfOk] result (λ stream. (stream ≡ [respace_marks] self.now) × ([first_fault] self.now
    ///   ≡ [None]))</code>
    /// - `ensures spaced`: <code>[IfOk] result [IsWellSpaced]</code>
    /// - `ensures keeps`: <code>[IfOk] result ([KeepsAllItMay] self.now)</code>
    /// - `ensures unchanged`: <code>[IfOk] result (λ stream. [IsWellSpaced] self.now → stream ≡ self.now)</code>
    /// - `ensures fault`: <code>[IfErr] result ([IsFaultOf] self.now)</code>
    /// - `ensures hopeless`: <code>[IfErr] result ([HopelessIfNamed] self.now)</code>
    ///
    /// [IfOk]: crate::contracts#std.IfOk
    /// [respace_marks]: crate::contracts#quoting.Respaced.respace_marks
    /// [first_fault]: crate::contracts#quoting.Fault.first_fault
    /// [None]: crate::contracts#std.None
    /// [IsWellSpaced]: crate::contracts#pm_stream.WellSpaced.IsWellSpaced
    /// [KeepsAllItMay]: crate::contracts#quoting.Choice.KeepsAllItMay
    /// [IfErr]: crate::contracts#std.IfErr
    /// [IsFaultOf]: crate::contracts#quoting.Fault.IsFaultOf
    /// [HopelessIfNamed]: crate::contracts#quoting.Choice.HopelessIfNamed
    pub fn finish(&self) -> Result<TokenStream, QuoteError>

        // A mark keeps its spacing wherever it may. So a stream that was well spaced is unchanged.

        // An error other than `Memory` is the first one. Then no choice of spacings is well spaced.
    {
        laws::respacing();
        // A well spaced stream does not change, so its trees are shared.
        if are_well_spaced(self.pushed.trees())? {
            return Ok(self.pushed.try_clone()?);
        }
        Ok(respace_marks(&self.pushed)?)
    }
}
