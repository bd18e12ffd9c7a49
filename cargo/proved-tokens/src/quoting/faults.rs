// Made from crates/quoting/src/faults.rt by dev/erase: change that file, not this one.
//! Checks whether a stream is well spaced, and finds errors that no choice of spacings can repair.

use crate::quoting::errors::QuoteError;
use crate::proc_macro2::token_stream::{Step, Steps, may_be_joint};
use crate::proc_macro2::{Delimiter, Group, Punct, Spacing, TokenTree};

/// Returns whether the trees are well spaced. Fails with their first error in reading order, where a group comes before
/// its contents, or if memory runs out.
pub(crate) fn are_well_spaced(trees: &[TokenTree]) -> Result<bool, QuoteError>
{
    let mut steps = Steps::new(trees);
    let mut spaced = true;
    while let Some(step) = steps.try_next()? {
        // A step that fits has no error.
        if !step_fits(step) {
            if let Some(fault) = step_fault(step) {
                return Err(fault);
            }
            spaced = false;
        }
    }
    Ok(spaced)
}

/// Returns the error of the step's tree, without a look at its contents.
fn step_fault(step: Step<'_>) -> Option<QuoteError>
{
    match step {
        Step::Enter(group, _) => group_fault(group),
        Step::Leave(..) => None,
        Step::Token(tree, after) => tree_fault(tree, after),
    }
}

/// Returns the error of the group, without a look at its contents.
fn group_fault(group: &Group) -> Option<QuoteError>
{
    match group.delimiter() {
        Delimiter::None => Some(QuoteError::NoneGroup),
        Delimiter::Parenthesis | Delimiter::Brace | Delimiter::Bracket => None,
    }
}

/// Returns the error of the tree before the trees `after`, without a look at its contents.
fn tree_fault(tree: &TokenTree, after: &[TokenTree]) -> Option<QuoteError>
{
    match tree {
        TokenTree::Group(group) => group_fault(group),
        TokenTree::Punct(mark) if !may_stand(mark, after) => Some(QuoteError::LoneQuote),
        TokenTree::Ident(_) | TokenTree::Punct(_) | TokenTree::Literal(_) => None,
    }
}

/// Returns whether the mark may come before these trees with some spacing.
fn may_stand(mark: &Punct, after: &[TokenTree]) -> bool
{
    mark.as_char() != '\'' || may_be_joint('\'', after)
}

/// Returns whether the step enters a group with delimiters, or comes to a token that is well spaced.
fn step_fits(step: Step<'_>) -> bool
{
    match step {
        Step::Enter(group, _) => group.delimiter() != Delimiter::None,
        Step::Leave(..) => true,
        Step::Token(tree, after) => tree_fits(tree, after),
    }
}

/// Returns whether the tree is well spaced before the trees `after`, without a look at its contents.
fn tree_fits(tree: &TokenTree, after: &[TokenTree]) -> bool
{
    match tree {
        TokenTree::Group(group) => group.delimiter() != Delimiter::None,
        TokenTree::Punct(mark) => mark_fits(mark, after),
        TokenTree::Ident(_) | TokenTree::Literal(_) => true,
    }
}

/// Returns whether the mark may come before these trees with its present spacing.
fn mark_fits(mark: &Punct, after: &[TokenTree]) -> bool
{
    match mark.spacing() {
        Spacing::Joint => may_be_joint(mark.as_char(), after),
        Spacing::Alone => mark.as_char() != '\'',
    }
}
