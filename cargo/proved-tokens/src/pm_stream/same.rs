// Made from crates/pm_stream/src/same.rt by dev/erase: change that file, not this one.
//! Whether two streams have the same tokens.
//!
//! Groups may nest as deep as a text is long, so the trees that are left after a group are kept in a list, not on the
//! stack. If memory for the list runs out, the function calls itself for the group. So it returns an answer anyway.

use crate::shim::prelude::Grow;

use crate::pm_stream::stream::{TokenStream, TokenTree};
use crate::pm_token::{Literal, Punct};

/// Two lists of trees that are to be compared.
#[derive(Clone, Copy)]
struct Lists<'a> {
    trees: &'a [TokenTree],
    others: &'a [TokenTree],
}

impl TokenStream {
    /// Returns whether both streams have the `same` trees up to spans: whether they are equal once every span, at any
    /// depth, is 0..0.
    ///
    /// The answer is right even if memory runs out. The time is proportional to the number of trees of the smaller
    /// stream and the length of their texts.
    ///
    /// The texts `a` and `  a` give the same tokens. `(a)` and `[a]` do not, and neither do `+ =` and `+=`: the `+` is
    /// Alone in one and Joint in the other.
    ///
    /// # Contract
    ///
    /// - `ensures`: <code>[IsTrue] result ↔ [Same] self.now other.now</code>
    ///
    /// [IsTrue]: crate::contracts#std.IsTrue
    /// [Same]: crate::contracts#pm_stream.Same.Same
    pub fn same_tokens(&self, other: &TokenStream) -> bool
    {
        are_same(self.trees(), other.trees())
    }
}

/// Whether both lists have the same trees up to spans.
fn are_same(trees: &[TokenTree], others: &[TokenTree]) -> bool
{
    let mut outer = Vec::new();
    let mut left = Lists { trees, others };
    loop {
        let Some((tree, trees)) = left.trees.split_first() else {
            if !left.others.is_empty() {
                return false;
            }
            let Some(after) = outer.pop() else {
                return true;
            };
            left = after;
            continue;
        };
        let Some((other, others)) = left.others.split_first() else {
            return false;
        };
        if !begin_alike(tree, other) {
            return false;
        }
        let after = Lists { trees, others };
        let inside = Lists {
            trees: tree.inside(),
            others: other.inside(),
        };
        left = after;
        if inside.trees.is_empty() && inside.others.is_empty() {
            continue;
        }
        if outer.push_fallibly(after).is_ok() {
            left = inside;
        } else if !are_same(inside.trees, inside.others) {
            return false;
        }
    }
}

/// Whether both are the same token, or groups with the same delimiter.
fn begin_alike(tree: &TokenTree, other: &TokenTree) -> bool
{
    match (tree, other) {
        (TokenTree::Group(group), TokenTree::Group(other)) => group.delimiter()
            == other.delimiter(),
        (TokenTree::Ident(ident), TokenTree::Ident(other)) => *ident == *other,
        (TokenTree::Punct(punct), TokenTree::Punct(other)) => {
            punct.as_char() == other.as_char() && punct.spacing() == other.spacing()
        }
        (TokenTree::Literal(literal), TokenTree::Literal(other)) => literal.text() == other.text(),
        _ => false,
    }
}
