// Made from crates/declarations/src/explore_path.rt by dev/erase: change that file, not this one.
//! How far a path reads, and with what signs it can go on. This is for trees that are no path.

use crate::declarations::expected::Expected;
use crate::declarations::explore::{Seen, explore, joined, no_sign, stopped};
use crate::declarations::fault::Fault;
use crate::declarations::reader::is;
use crate::declarations::signs::first_sign;
use crate::declarations::syntax::{ARGUMENTS, RETURNED, Test};
use crate::declarations::type_path::{is_round, is_segment, opens};
use crate::item_tables::class::SignClass;
use crate::pm_stream::TokenTree;

/// Where in a path what follows is read.
#[derive(Clone, Copy)]
pub enum PathPlace {
    /// After the name of a segment.
    AfterName,
    /// After the name of a segment and `::`.
    AfterSeparator,
    /// After the generic arguments of a segment.
    AfterArguments,
}

/// No sign is read, and one that passes one of the tests could come.
fn unread(trees: &[TokenTree], may_end: bool, first: Test, second: Test, third: Test) -> Seen<'_>
{
    let second = no_sign(second, trees).next.both(no_sign(third, trees).next);
    let next = no_sign(first, trees).next.both(second);
    Seen {
        left: trees,
        next: if may_end { next.with_end() } else { next },
    }
}

/// Reads the name of a segment.
fn see_segment(trees: &[TokenTree]) -> Result<(PathPlace, &[TokenTree]), Seen<'_>>
{
    match first_sign(trees) {
        Some((class, rest)) => {
            if is_segment(class) {
                Ok((PathPlace::AfterName, rest))
            } else {
                Err(no_sign(Test::PathSegment, trees))
            }
        }
        None => Err(no_sign(Test::PathSegment, trees)),
    }
}

/// Reads generic arguments and `>`.
fn see_angle(trees: &[TokenTree]) -> Result<(PathPlace, &[TokenTree]), Seen<'_>>
{
    let inside = explore(&ARGUMENTS, trees);
    if !inside.next.has_end() {
        return Err(stopped(inside));
    }
    let closing = no_sign(Test::Is(SignClass::Greater), inside.left);
    match first_sign(inside.left) {
        Some((class, rest)) => {
            if is(SignClass::Greater, class) {
                Ok((PathPlace::AfterArguments, rest))
            } else {
                Err(joined(inside, closing))
            }
        }
        None => Err(joined(inside, closing)),
    }
}

/// Reads what comes after parentheses.
fn see_round(trees: &[TokenTree]) -> Result<(PathPlace, &[TokenTree]), Seen<'_>>
{
    let separator = Test::Is(SignClass::PathSeparator);
    let none = unread(
        trees,
        true,
        Test::Is(SignClass::Arrow),
        separator,
        separator,
    );
    match first_sign(trees) {
        Some((class, rest)) => {
            if is(SignClass::Arrow, class) {
                Err(explore(&RETURNED, rest))
            } else if is(SignClass::PathSeparator, class) {
                see_segment(rest)
            } else {
                Err(none)
            }
        }
        None => Err(none),
    }
}

/// Reads what comes after generic arguments.
fn after_arguments(trees: &[TokenTree]) -> Result<(PathPlace, &[TokenTree]), Seen<'_>>
{
    let separator = Test::Is(SignClass::PathSeparator);
    let none = unread(trees, true, separator, separator, separator);
    match first_sign(trees) {
        Some((class, rest)) => {
            if is(SignClass::PathSeparator, class) {
                see_segment(rest)
            } else {
                Err(none)
            }
        }
        None => Err(none),
    }
}

/// Reads what comes after the name of a segment.
fn after_name(trees: &[TokenTree]) -> Result<(PathPlace, &[TokenTree]), Seen<'_>>
{
    let separator = Test::Is(SignClass::PathSeparator);
    let none = unread(trees, true, Test::Opens, Test::Round, separator);
    match first_sign(trees) {
        Some((class, rest)) => {
            if opens(class) {
                see_angle(rest)
            } else if is_round(class) {
                see_round(rest)
            } else if is(SignClass::PathSeparator, class) {
                Ok((PathPlace::AfterSeparator, rest))
            } else {
                Err(none)
            }
        }
        None => Err(none),
    }
}

/// Reads what comes after the name of a segment and `::`.
fn after_separator(trees: &[TokenTree]) -> Result<(PathPlace, &[TokenTree]), Seen<'_>>
{
    let none = unread(trees, false, Test::Opens, Test::Round, Test::PathSegment);
    match first_sign(trees) {
        Some((class, rest)) => {
            if opens(class) {
                see_angle(rest)
            } else if is_round(class) {
                see_round(rest)
            } else if is_segment(class) {
                Ok((PathPlace::AfterName, rest))
            } else {
                Err(none)
            }
        }
        None => Err(none),
    }
}

/// Reads on at this place.
fn see_next(place: PathPlace, trees: &[TokenTree]) -> Result<(PathPlace, &[TokenTree]), Seen<'_>>
{
    match place {
        PathPlace::AfterName => after_name(trees),
        PathPlace::AfterSeparator => after_separator(trees),
        PathPlace::AfterArguments => after_arguments(trees),
    }
}

/// Reads the beginning of a path.
fn see_first(trees: &[TokenTree]) -> Result<(PathPlace, &[TokenTree]), Seen<'_>>
{
    let separator = Test::Is(SignClass::PathSeparator);
    let none = unread(
        trees,
        false,
        separator,
        Test::PathSegment,
        Test::PathSegment,
    );
    match first_sign(trees) {
        Some((class, rest)) => {
            if is(SignClass::PathSeparator, class) {
                see_segment(rest)
            } else if is_segment(class) {
                Ok((PathPlace::AfterName, rest))
            } else {
                Err(none)
            }
        }
        None => Err(none),
    }
}

/// Reads the rest of a path from this place on.
fn see_rest<'a>(place: PathPlace, trees: &'a [TokenTree]) -> Seen<'a>
{
    let mut at = place;
    let mut left = trees;
    loop {
        match see_next(at, left) {
            Ok((next, rest)) => {
                at = next;
                left = rest;
            }
            Err(seen) => return seen,
        }
    }
}

/// Reads a path as far as it goes.
fn see_path(trees: &[TokenTree]) -> Seen<'_>
{
    match see_first(trees) {
        Ok((place, rest)) => see_rest(place, rest),
        Err(seen) => seen,
    }
}

/// The signs that could come next where the trees are no path.
fn expected_in_path(trees: &[TokenTree]) -> Expected
{
    see_path(trees).next
}

/// The error of trees that are no path, where `left` are the trees from the error on.
#[cold]
pub(crate) fn fault_in_path(trees: &[TokenTree], left: &[TokenTree]) -> Fault
{
    let fault = Fault::ahead_of(trees.len() - left.len(), left);
    fault.expecting(expected_in_path(trees))
}
