// Made from crates/declarations/src/walk.rt by dev/erase: change that file, not this one.
//! The walk over the signs of trees by the tables of types, bounds and expressions.

use crate::declarations::expected::{CLASSES, Expected};
use crate::declarations::signs::first_sign;
use crate::item_tables::class::SignClass;
use crate::item_tables::walk_state::WalkState;
use crate::pm_stream::TokenTree;

/// Skips what can be read from a state on. At an error it returns the trees after the longest prefix that can go on.
pub(crate) fn walk_past<'a>(
    trees: &'a [TokenTree],
    start: WalkState,
) -> Result<&'a [TokenTree], &'a [TokenTree]>
{
    let stop = walk_from(trees, start);
    if stop.place.may_end() {
        Ok(stop.left)
    } else {
        Err(stop.left)
    }
}

/// The state and the trees at which a walk stops.
#[derive(Clone, Copy)]
pub(crate) struct Stop<'a> {
    pub place: WalkState,
    /// The trees that are left.
    pub left: &'a [TokenTree],
}

/// Walks from a state on, as far as the signs are steps.
pub(crate) fn walk_from<'a>(trees: &'a [TokenTree], start: WalkState) -> Stop<'a>
{
    let mut place = start;
    let mut left = trees;
    while let Some((next, after)) = next_place(place, left) {
        place = next;
        left = after;
    }
    Stop { place, left }
}

/// One step: the next state, and the trees after the sign.
fn next_place<'a>(place: WalkState, trees: &'a [TokenTree]) -> Option<(WalkState, &'a [TokenTree])>
{
    let (class, after) = first_sign(trees)?;
    let next = place.step(class)?;
    Some((next, after))
}

/// Those of the classes for which there is a step from this place.
fn steps_among(place: WalkState, classes: &[SignClass]) -> Expected
{
    let mut found = Expected::nothing();
    for class in classes {
        if place.step(*class).is_some() {
            found = found.with(*class);
        }
    }
    found
}

/// The signs for which there is a step from this place, and the end if what is read may end there.
#[cold]
pub(crate) fn steps_from(place: WalkState) -> Expected
{
    let found = steps_among(place, &CLASSES);
    if place.may_end() {
        found.with_end()
    } else {
        found
    }
}
