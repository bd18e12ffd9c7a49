// Made from crates/declarations/src/range.rt by dev/erase: change that file, not this one.
//! The walk over a type or bounds alone.

use crate::declarations::signs::first_sign;
use crate::item_tables::class::SignClass;
use crate::item_tables::types::{TypeState, may_end, type_step};
use crate::item_tables::walk_state::depth_after;
use crate::pm_stream::TokenTree;

/// Skips a type or bounds from a state on. At an error it returns the trees after the longest prefix that can go on.
pub(crate) fn past_range(
    trees: &[TokenTree],
    start: TypeState,
) -> Result<&[TokenTree], &[TokenTree]>
{
    let mut state = start;
    let mut depth = 0usize;
    let mut left = trees;
    while let Some((next, brackets, after)) = next_range(state, depth, left) {
        state = next;
        depth = brackets;
        left = after;
    }
    if is_end(state, depth) {
        Ok(left)
    } else {
        Err(left)
    }
}

/// Whether a type or bounds may end in this state, within so many angle brackets.
fn is_end(state: TypeState, depth: usize) -> bool
{
    depth == 0 && may_end(state)
}

/// One step: the next state, the number of open angle brackets, and the trees after the sign.
fn next_range(
    state: TypeState,
    depth: usize,
    trees: &[TokenTree],
) -> Option<(TypeState, usize, &[TokenTree])>
{
    let (class, after) = first_sign(trees)?;
    let (next, brackets) = range_step(state, depth, class)?;
    Some((next, brackets, after))
}

/// The next state and the number of open angle brackets after a sign.
fn range_step(state: TypeState, depth: usize, class: SignClass) -> Option<(TypeState, usize)>
{
    let taken = type_step(state, class, depth == 0)?;
    Some((taken.state, depth_after(taken.turn, depth)))
}
