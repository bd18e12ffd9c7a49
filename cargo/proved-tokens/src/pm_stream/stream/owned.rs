// Made from crates/pm_stream/src/stream/owned.rt by dev/erase: change that file, not this one.
//! The trees of a stream as a list with one owner.

use super::{TokenStream, TokenTree};
use crate::shim::alloc::AllocError;
use crate::shim::rc::Rc;

impl TokenStream {
    /// Returns the stream's trees, in order. A list that no other stream shares is moved. A shared list is copied,
    /// which fails if memory runs out.
    pub(crate) fn into_list(self) -> Result<Vec<TokenTree>, AllocError>
    {
        let trees = { let mut whole = self; whole.trees.take() };
        take_list(trees)
    }
}

/// Returns the trees that a stream holds: the list itself if this was its last owner, and otherwise a copy.
fn take_list(trees: Option<Rc<Vec<TokenTree>>>) -> Result<Vec<TokenTree>, AllocError>
{
    match trees {
        None => Ok(Vec::new()),
        Some(shared) => unwrap_list(shared),
    }
}

/// Returns the list itself if this was its last owner, and otherwise a copy.
pub(super) fn unwrap_list(shared: Rc<Vec<TokenTree>>) -> Result<Vec<TokenTree>, AllocError>
{
    Rc::unwrap_or_clone(shared)
}
