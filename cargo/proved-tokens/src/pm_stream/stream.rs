// Made from crates/pm_stream/src/stream.rt by dev/erase: change that file, not this one.
//! Streams of token trees.

use crate::shim::prelude::{Grow, TryClone};

mod changes;
mod clones;
mod conversions;
mod owned;

use crate::pm_span::Span;
use crate::pm_span::parts::bounds;
use crate::pm_token::parts::discard;
use crate::pm_token::{Delimiter, Ident, Literal, Punct};
use crate::shim::alloc::AllocError;
use crate::shim::rc::Rc;

/// A list of token trees, each a token or a group of trees between delimiters.
pub struct TokenStream {
    trees: Option<Rc<Vec<TokenTree>>>,
}

/// A token, or a group of trees between delimiters.
pub enum TokenTree {
    /// Trees between delimiters.
    Group(Group),
    /// An identifier or a keyword.
    Ident(Ident),
    /// A punctuation mark.
    Punct(Punct),
    /// A literal.
    Literal(Literal),
}

/// Trees between delimiters.
pub struct Group {
    delimiter: Delimiter,
    stream: TokenStream,
    span: Span,
}

// Walks from the last group to the first, and into each group that has no other owner. The way back is kept in the
// lists themselves, where the entered group was. So dropping takes little stack and allocates nothing, however deep the
// groups nest.
impl Drop for TokenStream {
    fn drop(&mut self) {
        let trees = self.trees.take();
        let Some(mut shared) = trees else {
            return;
        };
        let Some(last) = take_group(&mut shared) else {
            return;
        };
        let mut here = TokenStream {
            trees: Some(shared),
        };
        let mut outer = last.stream;
        // Each step takes a group, or the way back that an earlier step left there. So there are at most two steps for
        // each group, and one that ends the walk. No memory holds enough groups to reach the bound. With a bound, the
        // loop needs no proof that it ends.
        for _ in 0..u64::MAX {
            let Some(group) = here.take_group() else {
                let Some(way) = outer.take_group() else {
                    return;
                };
                here = outer;
                outer = way.stream;
                continue;
            };
            let inside = group.stream;
            if inside.is_empty() {
                continue;
            }
            match here.push_outer(outer) {
                Ok(()) => {
                    outer = here;
                    here = inside;
                }
                Err(back) => outer = back,
            }
        }
    }
}

/// Removes and returns the last group of a list, unless the list has another owner. Drops the tokens after the group.
#[cfg_attr(not(debug_assertions), inline(always))]
fn take_group(shared: &mut Rc<Vec<TokenTree>>) -> Option<Group>
{
    match Rc::get_mut(shared) {
        Some(own) => pop_group(own),
        None => None,
    }
}

/// Removes and returns the last group. Drops the tokens after it.
#[cfg_attr(not(debug_assertions), inline(always))]
fn pop_group(trees: &mut Vec<TokenTree>) -> Option<Group>
{
    // Identifiers take a branch of their own, which does not load their fields. The tree popped there is an identifier.
    while let Some(last) = trees.last() {
        if let TokenTree::Ident(_) = last {
            match trees.pop() {
                Some(TokenTree::Group(group)) => return Some(group),
                Some(TokenTree::Ident(ident)) => discard(ident),
                Some(TokenTree::Punct(punct)) => drop(punct),
                Some(TokenTree::Literal(literal)) => drop(literal),
                None => return None,
            }
            continue;
        }
        match trees.pop() {
            Some(TokenTree::Group(group)) => return Some(group),
            Some(TokenTree::Ident(ident)) => drop(ident),
            Some(TokenTree::Punct(punct)) => drop(punct),
            Some(TokenTree::Literal(literal)) => drop(literal),
            None => return None,
        }
    }
    None
}

/// Appends a tree to a list that has no other owner. Otherwise, or if memory runs out, returns the tree.
fn put_last(shared: &mut Rc<Vec<TokenTree>>, tree: TokenTree) -> Result<(), TokenTree>
{
    match Rc::get_mut(shared) {
        Some(own) => match own.push_fallibly(tree) {
            Ok(()) => Ok(()),
            Err(refused) => Err(refused.value),
        },
        None => Err(tree),
    }
}

impl TokenStream {
    /// Returns a stream with no trees. It allocates nothing.
    ///
    /// # Contract
    ///
    /// - `ensures`: <code>result ≡ [nil]</code>
    ///
    /// [nil]: crate::contracts#pm_stream.Forest.nil
    pub fn new() -> TokenStream
    {
        TokenStream { trees: None }
    }

    /// Returns the stream of these trees. An empty list allocates nothing. Any other list is moved into memory that
    /// streams can share. If memory runs out, the trees are dropped.
    pub(crate) fn from_vec(trees: Vec<TokenTree>) -> Result<TokenStream, AllocError>
    {
        if trees.is_empty() {
            return Ok(TokenStream::new());
        }
        Ok(TokenStream {
            trees: Some(Rc::new(trees)?),
        })
    }

    /// Returns whether the stream has no trees.
    ///
    /// # Contract
    ///
    /// - `ensures`: <code>result ≡ [is_nil] self.now</code>
    ///
    /// [is_nil]: crate::contracts#pm_stream.Size.is_nil
    pub fn is_empty(&self) -> bool
    {
        self.trees().is_empty()
    }

    /// Returns the stream's trees, in order. The contract also says that every stream is `built`, and that each of its
    /// trees may be put into a stream again. A map that holds all spans of the stream holds those of each tree.
    ///
    /// # Contract
    ///
    /// - `ensures value`: <code>[forest] result.now ≡ self.now</code>
    /// - `ensures built`: <code>[IsBuilt] self.now</code>
    /// - `ensures inside`: <code>[All] [GoesInside] result.now</code>
    /// - `ensures held`: <code>(map : [Files]) → [HoldsAll] map self.now → [HoldsEach] map result.now</code>
    ///
    /// [forest]: crate::contracts#pm_stream.Trees.forest
    /// [IsBuilt]: crate::contracts#pm_stream.Forest.IsBuilt
    /// [All]: crate::contracts#std.All
    /// [GoesInside]: crate::contracts#pm_stream.Trees.GoesInside
    /// [Files]: crate::contracts#pm_span.Files.Files
    /// [HoldsAll]: crate::contracts#pm_stream.HeldSpans.HoldsAll
    /// [HoldsEach]: crate::contracts#pm_stream.HeldSpans.HoldsEach
    pub fn trees(&self) -> &[TokenTree]
    {
        listed_trees(&self.trees)
    }

    /// Removes and returns the last group, if the trees have no other owner. Drops the tokens after the group.
    fn take_group(&mut self) -> Option<Group>
    {
        let Some(shared) = &mut self.trees else {
            return None;
        };
        take_group(shared)
    }

    /// Appends a group that holds the outer trees. Returns the outer trees if that fails.
    fn push_outer(&mut self, outer: TokenStream) -> Result<(), TokenStream>
    {
        let Some(shared) = &mut self.trees else {
            return Err(outer);
        };
        outer.prove_built();
        let way = Group {
            delimiter: Delimiter::None,
            stream: outer,
            span: Span::call_site(),
        };
        if let Err(back) = put_last(shared, TokenTree::Group(way)) {
            return Err(back.into_inside());
        }
        Ok(())
    }

    /// States that every stream is `built`. It computes nothing: its contract hands the type's invariant to proofs.
    fn prove_built(&self)
    {
        let _ = &self.trees;
    }
}

/// Returns the trees in the list, or none without a list.
fn listed_trees(trees: &Option<Rc<Vec<TokenTree>>>) -> &[TokenTree]
{
    match trees {
        Some(trees) => trees.as_slice(),
        None => &[],
    }
}

impl TokenTree {
    /// Returns the span of the tree. The contract also says that a tree that may be put into a stream is `built`.
    ///
    /// # Contract
    ///
    /// - `ensures value`: <code>result ≡ [extent_of] self.now</code>
    /// - `ensures built`: <code>[GoesInside] self.now → [IsBuilt] ([alone] self.now)</code>
    ///
    /// [extent_of]: crate::contracts#pm_stream.TreeSpan.extent_of
    /// [GoesInside]: crate::contracts#pm_stream.Trees.GoesInside
    /// [IsBuilt]: crate::contracts#pm_stream.Forest.IsBuilt
    /// [alone]: crate::contracts#pm_stream.Trees.alone
    pub fn span(&self) -> Span
    {
        match self {
            TokenTree::Group(group) => group.span(),
            TokenTree::Ident(ident) => ident.span(),
            TokenTree::Punct(punct) => punct.span(),
            TokenTree::Literal(literal) => literal.span(),
        }
    }

    /// Sets the span of the tree, and changes nothing else. The trees in a group keep their spans.
    ///
    /// # Contract
    ///
    /// - `ensures`: <code>self.new ≡ [with_span] self.old span</code>
    ///
    /// [with_span]: crate::contracts#pm_stream.TreeSpan.with_span
    pub fn set_span(&mut self, span: Span)
    {
        match self {
            TokenTree::Group(group) => group.set_span(span),
            TokenTree::Ident(ident) => ident.set_span(span),
            TokenTree::Punct(punct) => punct.set_span(span),
            TokenTree::Literal(literal) => literal.set_span(span),
        }
    }

    /// Returns the trees inside a group. A token has none.
    pub(crate) fn inside(&self) -> &[TokenTree]
    {
        match self {
            TokenTree::Group(group) => group.stream.trees(),
            TokenTree::Ident(_) | TokenTree::Punct(_) | TokenTree::Literal(_) => &[],
        }
    }

    /// Returns the trees inside a group, as a stream. A token has none.
    fn into_inside(self) -> TokenStream
    {
        match self {
            TokenTree::Group(group) => group.stream,
            TokenTree::Ident(_) | TokenTree::Punct(_) | TokenTree::Literal(_) => TokenStream::new(
            ),
        }
    }
}

impl Group {
    /// Returns the group with this delimiter, stream and span.
    pub(crate) fn from_parts(delimiter: Delimiter, stream: TokenStream, span: Span) -> Group
    {
        Group {
            delimiter,
            stream,
            span,
        }
    }

    /// Returns a group of these trees between these delimiters, with the span 0..0. It allocates nothing.
    ///
    /// With `Delimiter::Parenthesis` and the stream `x` it returns `(x)`. The trees keep their spans.
    ///
    /// # Contract
    ///
    /// - `ensures`: <code>result ≡ record { delimiter = delimiter; stream = stream; span = [nowhere] }</code>
    ///
    /// [nowhere]: crate::contracts#pm_span.Extent.nowhere
    pub fn new(delimiter: Delimiter, stream: TokenStream) -> Group
    {
        Group::from_parts(delimiter, stream, Span::call_site())
    }

    /// Returns the delimiter around the group's trees.
    ///
    /// # Contract
    ///
    /// - `ensures`: <code>result ≡ self.now.delimiter</code>
    pub fn delimiter(&self) -> Delimiter
    {
        self.delimiter
    }

    /// Returns the group's trees, without the delimiters. Like every stream, they are `built`.
    ///
    /// # Contract
    ///
    /// - `ensures value`: <code>result.now ≡ self.now.stream</code>
    /// - `ensures built`: <code>[IsBuilt] result.now</code>
    ///
    /// [IsBuilt]: crate::contracts#pm_stream.Forest.IsBuilt
    pub fn stream_ref(&self) -> &TokenStream
    {
        self.stream.prove_built();
        &self.stream
    }

    /// Returns a stream of the group's trees, without the delimiters: `x` for `(x)`.
    ///
    /// The trees are shared until one of the two is changed, so this allocates nothing. It fails only if the trees have
    /// more owners than can be counted, and never for a group without trees. [`stream_ref`](Group::stream_ref) borrows
    /// the trees.
    ///
    /// # Contract
    ///
    /// - `ensures ok`: <code>[IfOk] result (λ stream. stream ≡ self.now.stream)</code>
    /// - `ensures empty`: <code>self.now.stream ≡ [nil] → [IsOk] result</code>
    ///
    /// [IfOk]: crate::contracts#std.IfOk
    /// [nil]: crate::contracts#pm_stream.Forest.nil
    /// [IsOk]: crate::contracts#std.IsOk
    pub fn stream(&self) -> Result<TokenStream, AllocError>
    {
        self.stream.try_clone()
    }

    /// Returns the span of the group, including its delimiters. The contract also says that every group is `built`.
    ///
    /// # Contract
    ///
    /// - `ensures value`: <code>result ≡ self.now.span</code>
    /// - `ensures built`: <code>[IsBuilt] ([alone] (GroupTree self.now))</code>
    ///
    /// [IsBuilt]: crate::contracts#pm_stream.Forest.IsBuilt
    /// [alone]: crate::contracts#pm_stream.Trees.alone
    pub fn span(&self) -> Span
    {
        // These calls compute nothing. Their contracts say that the stream is `built`, and that `lo` is at most `hi`.
        self.stream.prove_built();
        bounds(self.span);
        self.span
    }

    /// Sets the span of the group, and changes nothing else. The trees in it keep their spans.
    ///
    /// # Contract
    ///
    /// - `ensures`: <code>self.new ≡ record self.old { span = span }</code>
    pub fn set_span(&mut self, span: Span)
    {
        self.span = span;
    }

    /// Takes the trees out of the group and returns them. The group is empty afterwards.
    #[cfg_attr(not(debug_assertions), inline(always))]
    pub(crate) fn take_stream(&mut self) -> TokenStream
    {
        let trees = self.stream.trees.take();
        TokenStream { trees }
    }

    /// Replaces the group's trees with these trees.
    #[cfg_attr(not(debug_assertions), inline(always))]
    pub(crate) fn set_stream(&mut self, stream: TokenStream)
    {
        self.stream = stream;
    }
}
