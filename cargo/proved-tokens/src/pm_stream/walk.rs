// Made from crates/pm_stream/src/walk.rt by dev/erase: change that file, not this one.
//! A walk over all trees of a stream, one at a time.

use crate::pm_stream::steps::Steps;
use crate::pm_stream::stream::{Group, TokenStream, TokenTree};
use crate::shim::alloc::AllocError;

/// A walk over the trees of a stream, each group before the trees inside it.
pub struct Walk<'a> {
    steps: Steps<'a>,
}

impl TokenStream {
    /// Returns a walk over all trees of the stream, each group before the trees inside it (`reading-order`). It
    /// allocates nothing.
    ///
    /// `a (b) c` has four trees, in the order `a`, `(b)`, `b`, `c`.
    ///
    /// # Contract
    ///
    /// - `ensures`: <code>result ≡ [in_order] self.now</code>
    ///
    /// [in_order]: crate::contracts#pm_stream.InOrder.in_order
    pub fn walk(&self) -> Walk<'_>
    {
        Walk {
            steps: self.steps(),
        }
    }
}

impl<'a> Walk<'a> {
    /// Returns the next tree, or `None` after the last.
    ///
    /// It allocates only at a group, to remember the trees after it. So it fails only if the next tree is a group.
    /// After an error the walk is as before.
    ///
    /// # Contract
    ///
    /// - `ensures ok`: <code>[IfOk] result (λ next. [MatchOption] next ((self.old ≡ \[\]) × (self.new ≡ \[\])) (λ
    ///   tree. self.old ≡ tree.now ∷ self.new))</code>
    /// - `ensures inside`: <code>[IfOk] result (λ next. [IfSome] next (λ tree. (rest : [List] TreeValue) ×
    ///   (self.new ≡ [in_order_onto] ([inside] tree.now) rest)))</code>
    /// - `ensures memory`: <code>[OnErr] result ([BeginsWithGroup] self.old)</code>
    /// - `ensures err`: <code>[OnErr] result (self.new ≡ self.old)</code>
    ///
    /// [IfOk]: crate::contracts#std.IfOk
    /// [MatchOption]: crate::contracts#std.MatchOption
    /// [IfSome]: crate::contracts#std.IfSome
    /// [List]: crate::contracts#std.List
    /// [in_order_onto]: crate::contracts#pm_stream.InOrder.in_order_onto
    /// [inside]: crate::contracts#pm_stream.Trees.inside
    /// [OnErr]: crate::contracts#std.OnErr
    /// [BeginsWithGroup]: crate::contracts#pm_stream.InOrder.BeginsWithGroup
    pub fn try_next(&mut self) -> Result<Option<&'a TokenTree>, AllocError>
    {
        loop {
            let tree = self.steps.front();
            let step = self.steps.try_next()?;
            if tree.is_some() || step.is_none() {
                return Ok(tree);
            }
        }
    }
    /// Skips the trees inside this group, which must be the tree that [`next`](Walk::next) returned last. It allocates
    /// nothing.
    ///
    /// In `a (b) c`, after `next` returned `(b)` and this call skipped its trees, the next tree is `c`.
    ///
    /// # Contract
    ///
    /// - `ensures`: <code>(rest : [List] TreeValue) → self.old ≡ [in_order_onto] group.now.stream rest → self.new ≡
    ///   rest</code>
    ///
    /// [List]: crate::contracts#std.List
    /// [in_order_onto]: crate::contracts#pm_stream.InOrder.in_order_onto
    pub fn pass_over(&mut self, group: &Group)
    {
        self.steps.pass_trees(group.stream_ref().trees().len());
    }
}
