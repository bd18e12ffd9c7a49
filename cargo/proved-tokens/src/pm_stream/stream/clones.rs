// Made from crates/pm_stream/src/stream/clones.rt by dev/erase: change that file, not this one.
//! Copies of streams and trees.

use crate::shim::prelude::TryClone;

use super::{Group, TokenStream, TokenTree};
use crate::shim::alloc::AllocError;

/// Returns a stream of the same trees. They are shared until one of the two streams is changed, so this allocates
/// nothing, however many trees there are. It fails only if the trees have more owners than can be counted, and never
/// for an empty stream.
impl TryClone for TokenStream {
    fn try_clone(&self) -> Result<TokenStream, AllocError> {
        if self.is_empty() {
            return Ok(TokenStream::new());
        }
        let trees = match &self.trees {
            Some(trees) => Some(trees.try_clone()?),
            None => None,
        };
        Ok(TokenStream {
            trees,
        })
    }
}

crate::shim::copied!(TokenStream);

/// Returns the same tree, with the same spans. Fails if memory for its text runs out.
impl TryClone for TokenTree {
    #[cfg_attr(not(debug_assertions), inline(always))]
    fn try_clone(&self) -> Result<TokenTree, AllocError> {
        match self {
            TokenTree::Group(group) => Ok(TokenTree::Group(group.try_clone()?)),
            TokenTree::Ident(ident) => Ok(TokenTree::Ident(ident.try_clone()?)),
            TokenTree::Punct(punct) => Ok(TokenTree::Punct(punct.try_clone()?)),
            TokenTree::Literal(literal) => Ok(TokenTree::Literal(literal.try_clone()?)),
        }
    }
}

crate::shim::copied!(TokenTree);

/// Returns the same group. The trees inside are shared, as those of a cloned stream are.
impl TryClone for Group {
    fn try_clone(&self) -> Result<Group, AllocError> {
        Ok(Group {
            delimiter: self.delimiter,
            stream: self.stream.try_clone()?,
            span: self.span,
        })
    }
}

crate::shim::copied!(Group);
