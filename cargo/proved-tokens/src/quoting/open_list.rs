// Made from crates/quoting/src/open_list.rt by dev/erase: change that file, not this one.
//! Lists of trees that are open while a stream is changed.
//!
//! Groups may nest as deep as memory allows. So the lists of open groups are kept in a list and not on the stack. A
//! list in which nothing changes is not copied. It stays shared with the stream that it comes from.

use crate::shim::prelude::TryClone;

use crate::quoting::builder::StreamBuilder;
use crate::quoting::respace::with_contents;
use crate::proc_macro2::{TokenStream, TokenTree};
use crate::shim::alloc::AllocError;

/// One list of trees, of which the first `done` trees are as they will be.
pub(crate) struct OpenList<'a> {
    // The list without changes.
    stream: &'a TokenStream,
    trees: &'a [TokenTree],
    // The number of trees that are done.
    done: usize,
    // The done trees up to the last one that was changed, and their number.
    changed: Option<(StreamBuilder, usize)>,
}

impl<'a> OpenList<'a> {
    /// Returns the list of the stream, of which no tree is done.
    pub(crate) fn new(stream: &'a TokenStream) -> OpenList<'a>
    {
        OpenList {
            stream,
            trees: stream.trees(),
            done: 0,
            changed: None,
        }
    }

    /// Returns the number of trees that are done.
    pub(crate) fn count(&self) -> usize
    {
        self.done
    }

    /// Returns the first tree that is left, and the trees after it.
    pub(crate) fn next(&self) -> Option<(&'a TokenTree, &'a [TokenTree])>
    {
        self.trees[self.done..].split_first()
    }

    /// Replaces the first tree that is left by the same group with the done list `inner`. It must be the group that
    /// `inner` comes from, and all of `inner` must be done.
    pub(crate) fn close(&mut self, inner: OpenList<'_>) -> Result<(), AllocError>
    {
        let Some((tree, _)) = self.next() else {
            return Ok(());
        };
        let TokenTree::Group(group) = tree else {
            return Ok(());
        };
        if inner.changed.is_none() {
            self.keep();
            return Ok(());
        }
        let contents = inner.finish()?;
        self.replace(TokenTree::Group(with_contents(group, contents)))
    }

    /// Keeps the first tree that is left without a change.
    pub(crate) fn keep(&mut self)
    {
        self.done += 1;
    }

    /// Keeps the trees that are left before this index of the list without a change.
    pub(crate) fn keep_before(&mut self, index: usize)
    {
        self.done = self.done.max(index.min(self.trees.len()));
    }

    /// Keeps all trees that are left without a change.
    pub(crate) fn keep_rest(&mut self)
    {
        self.done = self.trees.len();
    }

    /// Replaces the first tree that is left. The trees before it that are not copied yet are copied.
    pub(crate) fn replace(&mut self, tree: TokenTree) -> Result<(), AllocError>
    {
        let (mut changed, count) = match self.changed.take() {
            Some(changed) => changed,
            None => (StreamBuilder::new(), 0),
        };
        changed.copy(&self.trees[..self.done][count..], self.trees.len())?;
        changed.put(tree, 0)?;
        self.done += 1;
        self.changed = Some((changed, self.done));
        Ok(())
    }

    /// Returns the done list. All of its trees must be done.
    pub(crate) fn finish(self) -> Result<TokenStream, AllocError>
    {
        let OpenList {
            stream,
            trees,
            done,
            changed,
        } = self;
        match changed {
            Some((mut changed, count)) => {
                changed.copy(&trees[..done][count..], 0)?;
                changed.finish()
            }
            None => stream.try_clone(),
        }
    }
}
