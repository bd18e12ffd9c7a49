// Made from crates/pm_stream/src/debug.rt by dev/erase: change that file, not this one.
//! How streams are shown by `Debug`.

use crate::pm_stream::stream::{Group, TokenStream, TokenTree};
use crate::pm_token::parts::show_span;
use crate::shim::fmt;
use crate::shim::fmt::Debug;

/// Shows the list of the trees.
impl Debug for TokenStream {
    fn fmt(&self, f: &mut core::fmt::Formatter<'_>) -> fmt::Result {
        f.write_str("TokenStream ")?;
        let mut list = f.debug_list();
        for tree in self.trees() {
            list.entry(tree);
        }
        list.finish()
    }
}

/// Shows the token or the group.
impl Debug for TokenTree {
    fn fmt(&self, f: &mut core::fmt::Formatter<'_>) -> fmt::Result {
        match self {
            TokenTree::Group(group) => group.fmt(f),
            TokenTree::Ident(ident) => ident.fmt(f),
            TokenTree::Punct(punct) => punct.fmt(f),
            TokenTree::Literal(literal) => literal.fmt(f),
        }
    }
}

/// Shows the delimiter, the stream, and the span unless that is 0..0.
impl Debug for Group {
    fn fmt(&self, f: &mut core::fmt::Formatter<'_>) -> fmt::Result {
        let mut debug = f.debug_struct("Group");
        debug.field("delimiter", &self.delimiter());
        debug.field("stream", self.stream_ref());
        show_span(&mut debug, self.span());
        debug.finish()
    }
}
