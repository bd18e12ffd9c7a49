// Made from crates/pm_stream/src/build/collects.rt by dev/erase: change that file, not this one.
//! The traits `FromIterator` and `Extend` for streams.

use crate::shim::prelude::{TryExtend, TryFromIterator};

use crate::pm_stream::stream::{Group, TokenStream, TokenTree};
use crate::pm_token::{Ident, Literal, Punct};
use crate::shim::alloc::AllocError;

/// Collects trees into a stream, as [`TokenStream::from_trees`] does.
impl TryFromIterator<TokenTree> for TokenStream {
    fn try_from_iter<I: IntoIterator<Item = TokenTree>>(
        trees: I,
    ) -> Result<TokenStream, AllocError> {
        TokenStream::from_trees(trees)
    }
}

crate::shim::gathered!(TokenStream, TokenTree);

/// Collects the trees of streams into one stream, as [`TokenStream::from_streams`] does.
impl TryFromIterator<TokenStream> for TokenStream {
    fn try_from_iter<I: IntoIterator<Item = TokenStream>>(
        streams: I,
    ) -> Result<TokenStream, AllocError> {
        TokenStream::from_streams(streams)
    }
}

crate::shim::gathered!(TokenStream, TokenStream);

/// Appends trees, as [`TokenStream::extend_trees`] does.
impl TryExtend<TokenTree> for TokenStream {
    fn try_extend<I: IntoIterator<Item = TokenTree>>(&mut self, trees: I) -> Result<(), AllocError> {
        self.extend_trees(trees)
    }
}

crate::shim::extended!(TokenStream, TokenTree);

/// Appends the trees of streams, as [`TokenStream::extend_streams`] does.
impl TryExtend<TokenStream> for TokenStream {
    fn try_extend<I: IntoIterator<Item = TokenStream>>(
        &mut self,
        streams: I,
    ) -> Result<(), AllocError> {
        self.extend_streams(streams)
    }
}

crate::shim::extended!(TokenStream, TokenStream);

/// Appends groups, as [`TokenStream::extend_groups`] does.
impl TryExtend<Group> for TokenStream {
    fn try_extend<I: IntoIterator<Item = Group>>(&mut self, groups: I) -> Result<(), AllocError> {
        self.extend_groups(groups)
    }
}

crate::shim::extended!(TokenStream, Group);

/// Appends identifiers, as [`TokenStream::extend_idents`] does.
impl TryExtend<Ident> for TokenStream {
    fn try_extend<I: IntoIterator<Item = Ident>>(&mut self, idents: I) -> Result<(), AllocError> {
        self.extend_idents(idents)
    }
}

crate::shim::extended!(TokenStream, Ident);

/// Appends marks, as [`TokenStream::extend_puncts`] does.
impl TryExtend<Punct> for TokenStream {
    fn try_extend<I: IntoIterator<Item = Punct>>(&mut self, puncts: I) -> Result<(), AllocError> {
        self.extend_puncts(puncts)
    }
}

crate::shim::extended!(TokenStream, Punct);

/// Appends literals, as [`TokenStream::extend_literals`] does.
impl TryExtend<Literal> for TokenStream {
    fn try_extend<I: IntoIterator<Item = Literal>>(&mut self, literals: I) -> Result<(), AllocError> {
        self.extend_literals(literals)
    }
}

crate::shim::extended!(TokenStream, Literal);
