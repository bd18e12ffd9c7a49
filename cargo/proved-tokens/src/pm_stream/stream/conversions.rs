// Made from crates/pm_stream/src/stream/conversions.rt by dev/erase: change that file, not this one.
//! Conversions of tokens and groups to trees.

use super::{Group, TokenTree};
use crate::pm_token::{Ident, Literal, Punct};

/// Makes a tree of a group.
impl From<Group> for TokenTree {
    fn from(group: Group) -> TokenTree {
        TokenTree::Group(group)
    }
}

/// Makes a tree of an identifier.
impl From<Ident> for TokenTree {
    fn from(ident: Ident) -> TokenTree {
        TokenTree::Ident(ident)
    }
}

/// Makes a tree of a mark.
impl From<Punct> for TokenTree {
    fn from(punct: Punct) -> TokenTree {
        TokenTree::Punct(punct)
    }
}

/// Makes a tree of a literal.
impl From<Literal> for TokenTree {
    fn from(literal: Literal) -> TokenTree {
        TokenTree::Literal(literal)
    }
}
