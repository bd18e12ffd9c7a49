// Made from crates/quoting/src/owned.rt by dev/erase: change that file, not this one.
//! Fills the holes of a template that nobody else uses, and reuses its lists.
//!
//! The functions call themselves for groups. The stack is bounded, since templates with groups below a fixed depth are
//! rejected.

use crate::quoting::builder::StreamBuilder;
use crate::quoting::errors::TemplateError;
use crate::quoting::fill::{are_fixed, has_meaning, repeat_onto};
use crate::quoting::holes::Hole;
use crate::quoting::interpolation::{FoundInterpolation, interpolation_at};
use crate::quoting::putting::put_name;
use crate::quoting::respace::mark_as;
use crate::pm_stream::parts;
use crate::proc_macro2::{Group, Spacing, TokenStream, TokenTree};

/// Returns the template with its holes filled, as `filled` does outside of repetitions. The trees before the first hole
/// keep their list. Groups may nest up to `depth` deep.
pub(crate) fn filled_in_place(
    template: TokenStream,
    holes: &[Hole<'_>],
    depth: usize,
) -> Result<TokenStream, TemplateError>
{
    let mut list = parts::into_trees(template)?;
    let mut done = 0;
    while let Some((tree, after)) = list[done..].split_first() {
        match interpolation_at(tree, after) {
            None => {
                let apart = comes_apart(tree, after);
                settle(&mut list[done], apart, holes, depth)?;
                done += 1;
            }
            Some(_) => break,
        }
    }
    if done == list.len() {
        return Ok(parts::stream(list)?);
    }
    let (mut out, rest) = StreamBuilder::of_first(list, done)?;
    fill_rest(&mut out, rest, holes, depth)?;
    Ok(out.finish()?)
}

/// Adds the trees of `rest` to the stream, with their holes filled.
fn fill_rest(
    out: &mut StreamBuilder,
    rest: Vec<TokenTree>,
    holes: &[Hole<'_>],
    depth: usize,
) -> Result<(), TemplateError>
{
    let mut list = rest;
    let mut done = 0;
    while let Some((tree, after)) = list[done..].split_first() {
        match interpolation_at(tree, after) {
            None => {
                let more = after.len();
                let apart = comes_apart(tree, after);
                settle(&mut list[done], apart, holes, depth)?;
                out.put_copy(&list[done], more)?;
                done += 1;
            }
            Some(FoundInterpolation::Names(name, left)) => {
                let more = left.len();
                put_name(out, &name, holes, &[], more)?;
                done = list.len() - more;
            }
            Some(FoundInterpolation::Repeats(repetition, left)) => {
                let more = left.len();
                repeat_onto(out, &repetition, holes, &[], depth)?;
                done = list.len() - more;
            }
        }
    }
    Ok(())
}

/// Changes the tree, which begins neither a hole nor a repetition, into the tree of the result. It also proves that the
/// new tree can be part of a stream.
#[cfg_attr(not(debug_assertions), inline(always))]
fn settle(
    tree: &mut TokenTree,
    apart: bool,
    holes: &[Hole<'_>],
    depth: usize,
) -> Result<(), TemplateError>
{
    change(tree, apart, holes, depth)?;
    // It computes nothing: proofs learn what is true of every tree.
    tree.span();
    Ok(())
}

/// Fills the contents of a group, or sets a mark Alone if `apart` is true.
#[cfg_attr(not(debug_assertions), inline(always))]
fn change(
    tree: &mut TokenTree,
    apart: bool,
    holes: &[Hole<'_>],
    depth: usize,
) -> Result<(), TemplateError>
{
    match tree {
        TokenTree::Group(group) => fill_group(group, holes, depth),
        TokenTree::Punct(mark) => {
            if apart {
                *mark = mark_as(mark, Spacing::Alone);
            }
            Ok(())
        }
        TokenTree::Ident(_) | TokenTree::Literal(_) => Ok(()),
    }
}

/// Fills the contents of the group.
fn fill_group(
    group: &mut Group,
    holes: &[Hole<'_>],
    depth: usize,
) -> Result<(), TemplateError>
{
    let Some(inner) = depth.checked_sub(1) else {
        return Err(TemplateError::TooDeep(group.span()));
    };
    // If there is nothing to fill, the trees stay in their list.
    if are_fixed(group.stream_ref().trees()) {
        return Ok(());
    }
    let inside = filled_in_place(parts::take_stream(group), holes, inner)?;
    parts::set_stream(group, inside);
    Ok(())
}

/// Returns whether the tree is a mark right before a hole or a repetition, which makes it Alone.
#[cfg_attr(not(debug_assertions), inline(always))]
fn comes_apart(tree: &TokenTree, after: &[TokenTree]) -> bool
{
    match tree {
        TokenTree::Punct(_) => has_meaning(after),
        TokenTree::Group(_) | TokenTree::Ident(_) | TokenTree::Literal(_) => false,
    }
}
