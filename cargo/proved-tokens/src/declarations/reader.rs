// Made from crates/declarations/src/reader.rt by dev/erase: change that file, not this one.
//! Functions that read by one rule of the grammar. Each returns the trees after what its rule reads at the start of the
//! trees, or the trees from the error on.

use crate::declarations::signs::first_sign;
use crate::item_tables::class::{SignClass, code};
use crate::pm_stream::TokenTree;

/// Whether a sign has this class.
pub(crate) fn is(class: SignClass, found: SignClass) -> bool
{
    code(class) == code(found)
}

/// Whether a sign of this class is next.
pub(crate) fn begins(trees: &[TokenTree], class: SignClass) -> bool
{
    match first_sign(trees) {
        Some((found, _)) => is(class, found),
        None => false,
    }
}

/// Whether a punctuation mark is next.
pub(crate) fn begins_mark(trees: &[TokenTree]) -> bool
{
    match trees.first() {
        Some(tree) => is_mark(tree),
        None => false,
    }
}

fn is_mark(tree: &TokenTree) -> bool
{
    match tree {
        TokenTree::Punct(_) => true,
        TokenTree::Group(_) | TokenTree::Ident(_) | TokenTree::Literal(_) => false,
    }
}

/// Whether an identifier is next, which may be a keyword.
pub(crate) fn begins_identifier(trees: &[TokenTree]) -> bool
{
    match trees.first() {
        Some(tree) => is_identifier(tree),
        None => false,
    }
}

fn is_identifier(tree: &TokenTree) -> bool
{
    match tree {
        TokenTree::Ident(_) => true,
        TokenTree::Group(_) | TokenTree::Punct(_) | TokenTree::Literal(_) => false,
    }
}

/// Skips a sign of this class.
pub(crate) fn past(trees: &[TokenTree], class: SignClass) -> Result<&[TokenTree], &[TokenTree]>
{
    match first_sign(trees) {
        Some((found, rest)) => {
            if is(class, found) {
                Ok(rest)
            } else {
                Err(trees)
            }
        }
        None => Err(trees),
    }
}

/// The trees before `rest`, with which they end.
pub(crate) fn part<'a>(trees: &'a [TokenTree], rest: &[TokenTree]) -> &'a [TokenTree]
{
    trees.split_at(trees.len() - rest.len()).0
}
