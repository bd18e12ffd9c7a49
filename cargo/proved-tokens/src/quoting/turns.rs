// Made from crates/quoting/src/turns.rt by dev/erase: change that file, not this one.
//! Counts the turns of a repetition, and checks the names inside it.

use crate::quoting::errors::TemplateError;
use crate::quoting::holes::{Hole, HoleName};
use crate::quoting::interpolation::{FoundInterpolation, interpolation_at};
use crate::proc_macro2::TokenTree;
use crate::proc_macro2::token_stream::{Step, Steps};
use crate::shim::alloc::AllocError;

/// Returns the number of turns of a repetition of these trees, inside the turns `turns` of outer repetitions. It is the
/// length of the first list that the trees name. Returns `None` if they name no list at any depth. Fails if memory runs
/// out.
pub(crate) fn turns_of(
    trees: &[TokenTree],
    holes: &[Hole<'_>],
    turns: &[usize],
) -> Result<Option<usize>, AllocError>
{
    let mut steps = Steps::new(trees);
    while let Some(step) = steps.try_next()? {
        if let Some(count) = step_turns(step, holes, turns) {
            return Ok(Some(count));
        }
    }
    Ok(None)
}

/// Returns the length of the list that is named at the step, if the step comes to the `#` of a list.
fn step_turns(step: Step<'_>, holes: &[Hole<'_>], turns: &[usize]) -> Option<usize>
{
    match step {
        Step::Token(tree, after) => named_length(tree, after, holes, turns),
        Step::Enter(..) | Step::Leave(..) => None,
    }
}

/// Returns the length of the list that is named at the tree, if the tree is the `#` of a list.
fn named_length(
    tree: &TokenTree,
    after: &[TokenTree],
    holes: &[Hole<'_>],
    turns: &[usize],
) -> Option<usize>
{
    let Some(FoundInterpolation::Names(name, _)) = interpolation_at(tree, after) else {
        return None;
    };
    name.filling(holes, turns)?.len()
}

/// Checks the names in a repetition of `count` turns, also in the repetitions inside it. Groups may nest up to `depth`
/// deep. Fails with the first error in reading order.
pub(crate) fn check_turns(
    trees: &[TokenTree],
    holes: &[Hole<'_>],
    turns: &[usize],
    depth: usize,
    count: usize,
) -> Result<(), TemplateError>
{
    let mut left = trees;
    while let Some((tree, after)) = left.split_first() {
        if let TokenTree::Group(group) = tree {
            let Some(inner) = depth.checked_sub(1) else {
                return Err(TemplateError::TooDeep(group.span()));
            };
            check_turns(group.stream_ref().trees(), holes, turns, inner, count)?;
        } else {
            interpolation_checked(tree, after, holes, turns, count)?;
        }
        left = after;
    }
    Ok(())
}

/// Checks the name of a hole, if the tree is the `#` before one.
fn interpolation_checked(
    tree: &TokenTree,
    after: &[TokenTree],
    holes: &[Hole<'_>],
    turns: &[usize],
    count: usize,
) -> Result<(), TemplateError>
{
    match interpolation_at(tree, after) {
        Some(FoundInterpolation::Names(name, _)) => name_checked(&name, holes, turns, count),
        Some(FoundInterpolation::Repeats(..)) | None => Ok(()),
    }
}

/// Checks that the name has a hole, and that a list has as many values as there are turns.
fn name_checked(
    name: &HoleName<'_>,
    holes: &[Hole<'_>],
    turns: &[usize],
    count: usize,
) -> Result<(), TemplateError>
{
    let Some(filling) = name.filling(holes, turns) else {
        return Err(TemplateError::NoHole(name.span()));
    };
    match filling.len() {
        Some(len) if len != count => Err(TemplateError::UnequalLists(name.span())),
        _ => Ok(()),
    }
}
