// Made from crates/item_headers/src/lists.rt by dev/erase: change that file, not this one.
//! Adds words, marks and trees to a quote, and the marks and words before each element of a list.

use crate::shim::prelude::TryClone;

use crate::proc_macro2::{Ident, IdentError, Punct, Spacing, Span, TokenTree};
use crate::quoting::Quote;
use crate::shim::alloc::AllocError;

/// The marks or the word before the first element of a list.
#[derive(Clone, Copy)]
pub(crate) enum Lead {
    /// `<`
    Angle,
    /// `::<`
    Turbofish,
    /// `where`
    Where,
}

/// Adds a mark that is Alone at the end of the quote.
pub(crate) fn push_mark(quote: &mut Quote, character: char) -> Result<(), AllocError>
{
    quote.push(TokenTree::Punct(Punct::new(character, Spacing::Alone)))
}

/// Adds a word at the end of the quote.
pub(crate) fn push_word(quote: &mut Quote, name: &str) -> Result<(), IdentError>
{
    let ident = Ident::new(name, Span::call_site())?;
    quote.push(TokenTree::Ident(ident))?;
    Ok(())
}

/// Adds copies of the trees at the end of the quote.
pub(crate) fn push_trees(quote: &mut Quote, trees: &[TokenTree]) -> Result<(), AllocError>
{
    let mut left = trees;
    while let Some((tree, rest)) = left.split_first() {
        let copy = tree.try_clone()?;
        quote.push(copy)?;
        left = rest;
    }
    Ok(())
}

/// Adds `:` and copies of the trees at the end of the quote, or nothing if there are no trees.
pub(crate) fn push_led(quote: &mut Quote, trees: &[TokenTree]) -> Result<(), AllocError>
{
    if trees.is_empty() {
        return Ok(());
    }
    push_mark(quote, ':')?;
    push_trees(quote, trees)?;
    Ok(())
}

/// Adds the marks or the word before an element of a list: `,` if `any` elements come before it, or else `lead`.
pub(crate) fn push_lead(
    quote: &mut Quote,
    lead: Lead,
    any: bool,
) -> Result<(), IdentError>
{
    if any {
        return Ok(push_mark(quote, ',')?);
    }
    push_first_lead(quote, lead)
}

/// Adds the marks or the word before the first element of a list.
fn push_first_lead(quote: &mut Quote, lead: Lead) -> Result<(), IdentError>
{
    match lead {
        Lead::Angle => Ok(push_mark(quote, '<')?),
        Lead::Turbofish => Ok(push_turbofish(quote)?),
        Lead::Where => push_word(quote, "where"),
    }
}

/// Adds `::<` at the end of the quote.
fn push_turbofish(quote: &mut Quote) -> Result<(), AllocError>
{
    push_joint_colon(quote)?;
    push_mark(quote, ':')?;
    push_mark(quote, '<')?;
    Ok(())
}

/// Adds a `:` that is Joint at the end of the quote.
fn push_joint_colon(quote: &mut Quote) -> Result<(), AllocError>
{
    quote.push(TokenTree::Punct(Punct::new(':', Spacing::Joint)))
}
