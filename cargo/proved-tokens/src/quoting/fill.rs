// Made from crates/quoting/src/fill.rt by dev/erase: change that file, not this one.
//! Fills the holes of a template that is shared.
//!
//! The functions call themselves for groups. The stack is bounded, since templates with groups below a fixed depth are
//! rejected.

use crate::shim::prelude::{Grow, GrowList, TryClone};

use crate::quoting::builder::StreamBuilder;
use crate::quoting::errors::TemplateError;
use crate::quoting::holes::Hole;
use crate::quoting::interpolation::{FoundInterpolation, Repetition, interpolation_at};
use crate::quoting::putting::put_name;
use crate::quoting::respace::{mark_as, with_contents};
use crate::quoting::turns::{check_turns, turns_of};
use crate::proc_macro2::{Group, Punct, Spacing, TokenStream, TokenTree};
use crate::shim::alloc::AllocError;

/// Returns the template with its holes filled in these turns of repetitions, the outermost first. Groups may nest up
/// to `depth` deep.
pub(crate) fn fill_template(
    template: &TokenStream,
    holes: &[Hole<'_>],
    turns: &[usize],
    depth: usize,
) -> Result<TokenStream, TemplateError>
{
    let trees = template.trees();
    let mut out = StreamBuilder::new();
    fill_onto(&mut out, trees, holes, turns, depth)?;
    Ok(out.finish()?)
}

/// Adds the trees of the template to the stream, with their holes filled as `fill_template` does.
fn fill_onto(
    out: &mut StreamBuilder,
    template: &[TokenTree],
    holes: &[Hole<'_>],
    turns: &[usize],
    depth: usize,
) -> Result<(), TemplateError>
{
    let mut left = template;
    while let Some((tree, after)) = left.split_first() {
        match interpolation_at(tree, after) {
            None => {
                if let TokenTree::Group(group) = tree {
                    let inside = filled_inside(group, holes, turns, depth)?;
                    out.put(TokenTree::Group(with_contents(group, inside)), after.len())?;
                } else {
                    out.put(apart_before(tree, after)?, after.len())?;
                }
                left = after;
            }
            Some(FoundInterpolation::Names(name, rest)) => {
                put_name(out, &name, holes, turns, rest.len())?;
                left = rest;
            }
            Some(FoundInterpolation::Repeats(repetition, rest)) => {
                repeat_onto(out, &repetition, holes, turns, depth)?;
                left = rest;
            }
        }
    }
    Ok(())
}

/// Returns a copy of the tree. A mark is Alone in the copy if a hole or a repetition begins right after it.
fn apart_before(tree: &TokenTree, after: &[TokenTree]) -> Result<TokenTree, AllocError>
{
    match tree {
        TokenTree::Punct(mark) if has_meaning(after) => Ok(TokenTree::Punct(mark_as(
            mark,
            Spacing::Alone,
        ))),
        _ => tree.try_clone(),
    }
}

/// Returns whether the trees begin with a hole or a repetition.
pub(crate) fn has_meaning(trees: &[TokenTree]) -> bool
{
    match trees.split_first() {
        Some((first, after)) => interpolation_at(first, after).is_some(),
        None => false,
    }
}

/// Returns the contents of the group with their holes filled. Groups may nest up to `depth` deep, this group included.
fn filled_inside(
    group: &Group,
    holes: &[Hole<'_>],
    turns: &[usize],
    depth: usize,
) -> Result<TokenStream, TemplateError>
{
    let Some(inner) = depth.checked_sub(1) else {
        return Err(TemplateError::TooDeep(group.span()));
    };
    let template = group.stream_ref();
    // If there is nothing to fill, the trees are shared.
    if are_fixed(template.trees()) {
        return Ok(template.try_clone()?);
    }
    fill_template(template, holes, turns, inner)
}

/// Returns whether no tree is a group or a `#`, so that filling changes nothing.
pub(crate) fn are_fixed(trees: &[TokenTree]) -> bool
{
    for tree in trees {
        if !is_fixed(tree) {
            return false;
        }
    }
    true
}

/// Returns whether the tree is neither a group nor a `#`.
fn is_fixed(tree: &TokenTree) -> bool
{
    match tree {
        TokenTree::Group(_) => false,
        TokenTree::Punct(mark) => mark.as_char() != '#',
        TokenTree::Ident(_) | TokenTree::Literal(_) => true,
    }
}

/// Adds the turns of a repetition to the stream, with the separator between them. The error `NoList` comes before any
/// error inside the repetition.
pub(crate) fn repeat_onto(
    out: &mut StreamBuilder,
    repetition: &Repetition<'_>,
    holes: &[Hole<'_>],
    turns: &[usize],
    depth: usize,
) -> Result<(), TemplateError>
{
    let body = repetition.body;
    let Some(inner) = depth.checked_sub(1) else {
        return Err(TemplateError::TooDeep(body.span()));
    };
    let trees = body.stream_ref().trees();
    let Some(count) = turns_of(trees, holes, turns)? else {
        return Err(TemplateError::NoList(body.span()));
    };
    check_turns(trees, holes, turns, inner, count)?;
    for turn in 0..count {
        separate(out, repetition.separator, turn, trees.len())?;
        fill_turn(out, trees, holes, turns, turn, inner)?;
    }
    Ok(())
}

/// Adds the trees of one turn of a repetition to the stream, with their holes filled. `turns` are those of the
/// repetitions around it.
fn fill_turn(
    out: &mut StreamBuilder,
    template: &[TokenTree],
    holes: &[Hole<'_>],
    turns: &[usize],
    turn: usize,
    depth: usize,
) -> Result<(), TemplateError>
{
    // Most repetitions are not inside another one. They need no list of turns.
    if turns.is_empty() {
        return fill_onto(out, template, holes, &[turn], depth);
    }
    let here = and_turn(turns, turn)?;
    fill_onto(out, template, holes, here.as_slice(), depth)
}

/// Returns the turns of the outer repetitions, followed by this turn.
fn and_turn(turns: &[usize], turn: usize) -> Result<Vec<usize>, AllocError>
{
    let mut list = Vec::with_capacity_fallibly(turns.len().saturating_add(1))?;
    list.extend_from_slice_fallibly(turns)?;
    list.push_fallibly(turn)?;
    Ok(list)
}

/// Adds the separator, Alone, before every turn but the first. About `more` trees are expected after it.
fn separate(
    out: &mut StreamBuilder,
    separator: Option<&Punct>,
    turn: usize,
    more: usize,
) -> Result<(), AllocError>
{
    match separator {
        Some(mark) if turn > 0 => out.put(TokenTree::Punct(mark_as(mark, Spacing::Alone)), more),
        _ => Ok(()),
    }
}
