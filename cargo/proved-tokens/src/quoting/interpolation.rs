// Made from crates/quoting/src/interpolation.rt by dev/erase: change that file, not this one.
//! Finds the holes and repetitions of a template.

use crate::quoting::holes::HoleName;
use crate::proc_macro2::{Delimiter, Group, Punct, TokenTree};

/// A hole or a repetition in a template, and the trees after it.
#[derive(Clone, Copy)]
pub(crate) enum FoundInterpolation<'a> {
    // `#` and the name of a hole.
    Names(HoleName<'a>, &'a [TokenTree]),
    // `#( .. )*`, or with a mark before `*`.
    Repeats(Repetition<'a>, &'a [TokenTree]),
}

/// The group that is repeated, and the mark between two turns.
#[derive(Clone, Copy)]
pub(crate) struct Repetition<'a> {
    pub(crate) body: &'a Group,
    pub(crate) separator: Option<&'a Punct>,
}

/// Returns the hole or the repetition that begins with the tree. Returns `None` if the tree is an ordinary one.
#[cfg_attr(not(debug_assertions), inline(always))]
pub(crate) fn interpolation_at<'a>(
    tree: &TokenTree,
    after: &'a [TokenTree],
) -> Option<FoundInterpolation<'a>>
{
    if !is_mark(tree, '#') {
        return None;
    }
    interpolation_after(after)
}

/// Returns the hole or the repetition that a `#` before these trees begins.
#[inline(never)]
fn interpolation_after(after: &[TokenTree]) -> Option<FoundInterpolation<'_>>
{
    let (first, rest) = after.split_first()?;
    if let TokenTree::Group(body) = first {
        return repetition_of(body, rest);
    }
    Some(FoundInterpolation::Names(name_of(first)?, rest))
}

/// Returns the repetition of the group, if the trees after it are a `*`, or a mark and a `*`.
fn repetition_of<'a>(body: &'a Group, after: &'a [TokenTree]) -> Option<FoundInterpolation<'a>>
{
    if body.delimiter() != Delimiter::Parenthesis {
        return None;
    }
    let (first, rest) = after.split_first()?;
    if is_mark(first, '*') {
        let separator = None;
        return Some(FoundInterpolation::Repeats(Repetition { body, separator }, rest));
    }
    let (second, rest) = rest.split_first()?;
    let TokenTree::Punct(mark) = first else {
        return None;
    };
    if !is_mark(second, '*') {
        return None;
    }
    let separator = Some(mark);
    Some(FoundInterpolation::Repeats(Repetition { body, separator }, rest))
}

/// Returns the tree as a hole's name: an identifier, or a literal of digits alone.
fn name_of(tree: &TokenTree) -> Option<HoleName<'_>>
{
    match tree {
        TokenTree::Ident(ident) => Some(HoleName::IdentName(ident)),
        TokenTree::Literal(literal) if all_digits(literal.text()) => Some(HoleName::Digits(
            literal,
        )),
        _ => None,
    }
}

/// Returns whether the text has only ASCII digits.
fn all_digits(text: &str) -> bool
{
    text.chars().all(|c| c.is_ascii_digit())
}

/// Returns whether the tree is this mark, with any spacing.
#[cfg_attr(not(debug_assertions), inline(always))]
fn is_mark(tree: &TokenTree, mark: char) -> bool
{
    match tree {
        TokenTree::Punct(punct) => punct.as_char() == mark,
        _ => false,
    }
}
