// Made from crates/declarations/src/inner.rt by dev/erase: change that file, not this one.
//! Inner attributes, which a file begins with.

use crate::declarations::reader::{begins, past};
use crate::item_tables::class::SignClass;
use crate::pm_stream::TokenTree;

/// Whether an inner attribute is next.
fn begins_inner(trees: &[TokenTree]) -> bool
{
    begins(trees, SignClass::HashBang)
}

/// Skips an inner attribute.
fn past_inner(trees: &[TokenTree]) -> Result<&[TokenTree], &[TokenTree]>
{
    past(past(trees, SignClass::HashBang)?, SignClass::Brackets)
}

/// Skips inner attributes.
pub(crate) fn past_inner_attributes(trees: &[TokenTree]) -> Result<&[TokenTree], &[TokenTree]>
{
    let mut left = trees;
    while begins_inner(left) {
        match past_inner(left) {
            Ok(next) => left = next,
            Err(fault) => return Err(fault),
        }
    }
    Ok(left)
}
