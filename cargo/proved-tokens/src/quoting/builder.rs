// Made from crates/quoting/src/builder.rt by dev/erase: change that file, not this one.
//! A builder of streams that shares a stream while it is the only one that was added.

use crate::shim::prelude::{Grow, GrowList, TryClone};

use crate::pm_stream::parts;
use crate::proc_macro2::{TokenStream, TokenTree};
use crate::shim::alloc::AllocError;

/// The largest capacity, in trees, that a list gets in advance. Most templates have fewer trees.
const MOST_ROOM: usize = 64;

/// The smallest capacity of a list, in trees. The first push would grow the list to it anyway.
const LEAST_ROOM: usize = 4;

/// Up to this capacity, in trees, a list is not shrunk.
const FEW_TREES: usize = 8;

/// A stream under construction. Contracts see it as the trees that were added, in order.
pub(crate) struct StreamBuilder {
    trees: Trees,
}

/// The trees of a stream under construction.
pub(crate) enum Trees {
    // The trees of one stream, or none. Nothing was added after it, so it is shared.
    Shared(TokenStream),
    // A list that becomes a stream without a copy.
    Listed(Vec<TokenTree>),
}

impl StreamBuilder {
    /// Returns a builder without trees. It allocates nothing.
    pub(crate) fn new() -> StreamBuilder
    {
        StreamBuilder {
            trees: Trees::Shared(TokenStream::new()),
        }
    }

    /// Returns a builder of the first `count` trees of the list, and the other trees. If `count` is 0, the builder can
    /// still share the first stream that is added.
    pub(crate) fn of_first(
        list: Vec<TokenTree>,
        count: usize,
    ) -> Result<(StreamBuilder, Vec<TokenTree>), AllocError>
    {
        if count == 0 {
            return Ok((StreamBuilder::new(), list));
        }
        let mut first = list;
        let rest = first.split_off_fallibly(count)?;
        let builder = StreamBuilder {
            trees: Trees::Listed(first),
        };
        Ok((builder, rest))
    }

    /// Adds the tree at the end. About `more` trees are expected after it.
    #[cfg_attr(not(debug_assertions), inline(always))]
    pub(crate) fn put(&mut self, tree: TokenTree, more: usize) -> Result<(), AllocError>
    {
        match &mut self.trees {
            Trees::Listed(list) => push(list, tree)?,
            Trees::Shared(stream) => {
                let mut list = copy_list(stream, more.saturating_add(1))?;
                push(&mut list, tree)?;
                self.trees = Trees::Listed(list);
            }
        }
        Ok(())
    }

    /// Adds a copy of the tree at the end. About `more` trees are expected after it.
    #[cfg_attr(not(debug_assertions), inline(always))]
    pub(crate) fn put_copy(&mut self, tree: &TokenTree, more: usize) -> Result<(), AllocError>
    {
        match &mut self.trees {
            Trees::Listed(list) => copy_onto(list, tree)?,
            Trees::Shared(stream) => {
                let mut list = copy_list(stream, more.saturating_add(1))?;
                copy_onto(&mut list, tree)?;
                self.trees = Trees::Listed(list);
            }
        }
        Ok(())
    }

    /// Adds copies of the trees at the end. About `more` trees are expected after them.
    #[inline(never)]
    pub(crate) fn copy(&mut self, trees: &[TokenTree], more: usize) -> Result<(), AllocError>
    {
        match &mut self.trees {
            Trees::Listed(list) => {
                // The expected trees are counted too, so that the list grows only once.
                list.reserve_fallibly(trees.len().saturating_add(more.min(MOST_ROOM)))?;
                push_copies(list, trees)?;
            }
            Trees::Shared(stream) => {
                let mut list = copy_list(stream, more.saturating_add(trees.len()))?;
                push_copies(&mut list, trees)?;
                self.trees = Trees::Listed(list);
            }
        }
        Ok(())
    }

    /// Adds the trees of the stream at the end. About `more` trees are expected after them.
    pub(crate) fn append(&mut self, stream: &TokenStream, more: usize) -> Result<(), AllocError>
    {
        if let Trees::Shared(first) = &self.trees {
            if first.is_empty() {
                self.trees = Trees::Shared(stream.try_clone()?);
                return Ok(());
            }
        }
        self.copy(stream.trees(), more)
    }

    /// Returns the stream of all trees that were added.
    pub(crate) fn finish(self) -> Result<TokenStream, AllocError>
    {
        let StreamBuilder { trees } = self;
        match trees {
            Trees::Shared(stream) => Ok(stream),
            Trees::Listed(mut list) => {
                // Fewer trees may have been added than expected. A list that grew by pushes is more than half full.
                if list.capacity() > FEW_TREES && list.len() <= list.capacity() / 2 {
                    list.shrink_to_fit();
                }
                parts::stream(list)
            }
        }
    }
}

/// Returns a list of copies of the stream's trees, with room for `more` trees but at most `MOST_ROOM` in all.
#[inline(never)]
fn copy_list(stream: &TokenStream, more: usize) -> Result<Vec<TokenTree>, AllocError>
{
    let trees = stream.trees();
    let room = trees.len().saturating_add(more).min(MOST_ROOM);
    let mut list = Vec::with_capacity_fallibly(room.max(LEAST_ROOM))?;
    push_copies(&mut list, trees)?;
    Ok(list)
}

/// Adds the tree at the end of the list.
#[cfg_attr(not(debug_assertions), inline(always))]
fn push(list: &mut Vec<TokenTree>, tree: TokenTree) -> Result<(), AllocError>
{
    // It computes nothing: proofs learn what is true of every tree.
    tree.span();
    list.reserve_fallibly(1)?;
    list.push(tree);
    Ok(())
}

/// Adds a copy of the tree at the end of the list, and proves that the list can become a stream.
#[cfg_attr(not(debug_assertions), inline(always))]
fn copy_onto(list: &mut Vec<TokenTree>, tree: &TokenTree) -> Result<(), AllocError>
{
    // It computes nothing: proofs learn what is true of every tree.
    tree.span();
    push_copy(list, tree)?;
    Ok(())
}

/// Adds copies of the trees at the end of the list. A copy of a group shares its contents.
#[cfg_attr(not(debug_assertions), inline(always))]
fn push_copies(list: &mut Vec<TokenTree>, trees: &[TokenTree]) -> Result<(), AllocError>
{
    list.reserve_fallibly(trees.len())?;
    for tree in trees {
        put_copy(list, tree)?;
    }
    Ok(())
}

/// Adds a copy of the tree at the end of the list. Room is reserved first, so that the copy is made in its slot.
#[cfg_attr(not(debug_assertions), inline(always))]
fn push_copy(list: &mut Vec<TokenTree>, tree: &TokenTree) -> Result<(), AllocError>
{
    list.reserve_fallibly(1)?;
    put_copy(list, tree)
}

/// Adds a copy of the tree at the end of the list, which must have room for it.
#[cfg_attr(not(debug_assertions), inline(always))]
fn put_copy(list: &mut Vec<TokenTree>, tree: &TokenTree) -> Result<(), AllocError>
{
    match tree {
        TokenTree::Group(group) => list.push(TokenTree::Group(group.try_clone()?)),
        TokenTree::Ident(ident) => list.push(TokenTree::Ident(ident.try_clone()?)),
        TokenTree::Punct(mark) => list.push(TokenTree::Punct(mark.try_clone()?)),
        TokenTree::Literal(literal) => list.push(TokenTree::Literal(literal.try_clone()?)),
    }
    Ok(())
}
