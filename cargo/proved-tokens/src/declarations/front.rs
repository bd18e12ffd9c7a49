// Made from crates/declarations/src/front.rt by dev/erase: change that file, not this one.
//! The attributes and the visibility before a field, a variant or an item.

use crate::declarations::parameter::past_attributes;
use crate::declarations::reader::{is, part};
use crate::declarations::signs::group_class;
use crate::item_tables::class::SignClass;
use crate::pm_stream::TokenTree;

/// Attributes and a visibility.
#[derive(Clone, Copy)]
pub(crate) struct Front<'a> {
    /// The outer attributes, perhaps none.
    pub attributes: &'a [TokenTree],
    /// The visibility, or no trees.
    pub visibility: &'a [TokenTree],
}

/// Reads attributes and a visibility. Returns them and the trees after them, or the trees from the error on.
pub(crate) fn front_of(trees: &[TokenTree]) -> Result<(Front<'_>, &[TokenTree]), &[TokenTree]>
{
    match past_attributes(trees) {
        Ok(from_visibility) => {
            let rest = past_visibility(from_visibility);
            let front = Front {
                attributes: part(trees, from_visibility),
                visibility: part(from_visibility, rest),
            };
            Ok((front, rest))
        }
        Err(left) => Err(left),
    }
}

/// Skips a visibility, if one is next. The class of an identifier is not computed.
pub(crate) fn past_visibility(trees: &[TokenTree]) -> &[TokenTree]
{
    match trees.split_first() {
        Some((tree, rest)) => {
            if is_pub(tree) {
                return past_restriction(rest);
            }
            if is_group_of(SignClass::Visibility, tree) {
                return rest;
            }
            trees
        }
        None => trees,
    }
}

/// Skips a restriction, if one is next.
fn past_restriction(trees: &[TokenTree]) -> &[TokenTree]
{
    match trees.split_first() {
        Some((tree, rest)) => {
            if is_group_of(SignClass::Restriction, tree) {
                rest
            } else {
                trees
            }
        }
        None => trees,
    }
}

/// Whether the tree is `pub`.
fn is_pub(tree: &TokenTree) -> bool
{
    match tree {
        TokenTree::Ident(word) => word.eq_str("pub"),
        TokenTree::Group(_) | TokenTree::Punct(_) | TokenTree::Literal(_) => false,
    }
}

/// Whether the tree is a group of this class.
fn is_group_of(class: SignClass, tree: &TokenTree) -> bool
{
    match tree {
        TokenTree::Group(group) => is(class, group_class(group)),
        TokenTree::Ident(_) | TokenTree::Punct(_) | TokenTree::Literal(_) => false,
    }
}
