// Made from crates/pm_stream/src/token_stream.rt by dev/erase: change that file, not this one.
//! The iterator that takes a stream apart: it returns the trees one at a time.

use crate::shim::prelude::TryClone;

pub use crate::pm_stream::stream::TokenStream;
use crate::pm_stream::stream::TokenTree;
use crate::shim::alloc::AllocError;
use crate::shim::collections::VecDeque;
use crate::shim::fmt;

/// An iterator over the trees of a stream, in order. A group is one item, with its trees inside it.
///
/// [`TokenStream::into_iter`] creates it.
pub struct IntoIter {
    left: VecDeque<TokenTree>,
}

impl TokenStream {
    /// Returns an iterator over the stream's trees, in order. A group is one item, with its trees inside it:
    /// `a (b c) d` gives `a`, `(b c)` and `d`.
    ///
    /// If another stream shares the trees, they are copied. The call fails if memory for the copy runs out, and the
    /// other stream does not change. Without sharing, the call allocates nothing.
    ///
    /// # Contract
    ///
    /// - `ensures value`: <code>[IfOk] result (λ it. [forest] it ≡ self)</code>
    /// - `ensures built`: <code>[IsBuilt] self</code>
    /// - `ensures inside`: <code>[IfOk] result ([All] [GoesInside])</code>
    /// - `ensures held`: <code>(map : [Files]) → [HoldsAll] map self → [IfOk] result ([HoldsEach] map)</code>
    ///
    /// [IfOk]: crate::contracts#std.IfOk
    /// [forest]: crate::contracts#pm_stream.Trees.forest
    /// [IsBuilt]: crate::contracts#pm_stream.Forest.IsBuilt
    /// [All]: crate::contracts#std.All
    /// [GoesInside]: crate::contracts#pm_stream.Trees.GoesInside
    /// [Files]: crate::contracts#pm_span.Files.Files
    /// [HoldsAll]: crate::contracts#pm_stream.HeldSpans.HoldsAll
    /// [HoldsEach]: crate::contracts#pm_stream.HeldSpans.HoldsEach
    pub fn try_into_iter(self) -> Result<IntoIter, AllocError>
    {
        Ok(IntoIter {
            left: VecDeque::from_vec(self.into_list()?),
        })
    }
}

impl Iterator for IntoIter {
    type Item = TokenTree;

    /// Returns the next tree, or `None` after the last. The tree may be put into a stream again, and the trees that are
    /// left are `built`.
    fn next(&mut self) -> Option<TokenTree> {
        self.left.pop_front()
    }

    /// Returns the exact number of trees that are left, as the lower and as the upper bound. A group counts as one.
    fn size_hint(&self) -> (usize, Option<usize>)
    {
        let left = self.left.len();
        (left, Some(left))
    }
}

/// Returns an iterator over copies of the trees that are left. Fails if memory runs out.
impl TryClone for IntoIter {
    fn try_clone(&self) -> Result<IntoIter, AllocError> {
        Ok(IntoIter {
            left: self.left.try_clone()?,
        })
    }
}

crate::shim::copied!(IntoIter);

/// Shows the list of the trees that are left, in the form in which a stream is shown.
impl fmt::Debug for IntoIter {
    fn fmt(&self, f: &mut core::fmt::Formatter<'_>) -> fmt::Result {
        f.write_str("TokenStream ")?;
        self.left.fmt(f)
    }
}
