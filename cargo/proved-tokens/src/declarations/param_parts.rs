// Made from crates/declarations/src/param_parts.rt by dev/erase: change that file, not this one.
//! The parts of generic parameters and of predicates.
//!
//! A function here returns the part at the start of the trees, and the trees after it. At an error it returns the trees
//! from the error on.

use crate::declarations::generic_argument::past_bounds;
use crate::declarations::generics::{Param, ParamKind, Predicate};
use crate::declarations::parameter::{past_attributes, past_type};
use crate::declarations::reader::{is, part};
use crate::declarations::signs::first_sign;
use crate::item_tables::class::{Keyword, SignClass};
use crate::pm_stream::TokenTree;

/// The generic parameter at the start of the trees, and the trees after it.
pub(crate) fn param_of<'a>(
    trees: &'a [TokenTree],
) -> Result<(Param<'a>, &'a [TokenTree]), &'a [TokenTree]>
{
    let (attributes, from_name) = attributes_of(trees)?;
    let (kind, name, from_bounds) = name_of(from_name)?;
    let (bounds, from_default) = bounds_of(kind, from_bounds)?;
    let (default, from_end) = default_of(kind, from_default)?;
    let param = Param {
        attributes,
        kind,
        name,
        bounds,
        default,
    };
    Ok((param, from_end))
}

/// The predicate at the start of the trees, and the trees after it.
pub(crate) fn predicate_of<'a>(
    trees: &'a [TokenTree],
) -> Result<(Predicate<'a>, &'a [TokenTree]), &'a [TokenTree]>
{
    let (bounded, from_colon) = type_of(trees)?;
    let (bounds, from_end) = must_bounds(from_colon)?;
    Ok((Predicate { bounded, bounds }, from_end))
}

// ---- parts that the tables read

/// The trees before `rest`, with which they end.
fn before<'a>(trees: &'a [TokenTree], rest: &[TokenTree]) -> &'a [TokenTree]
{
    trees.split_at(trees.len() - rest.len()).0
}

fn attributes_of<'a>(
    trees: &'a [TokenTree],
) -> Result<(&'a [TokenTree], &'a [TokenTree]), &'a [TokenTree]>
{
    match past_attributes(trees) {
        Ok(rest) => Ok((part(trees, rest), rest)),
        Err(left) => Err(left),
    }
}

fn plain_bounds<'a>(
    trees: &'a [TokenTree],
) -> Result<(&'a [TokenTree], &'a [TokenTree]), &'a [TokenTree]>
{
    match past_bounds(trees) {
        Ok(rest) => Ok((part(trees, rest), rest)),
        Err(left) => Err(left),
    }
}

fn type_of<'a>(
    trees: &'a [TokenTree],
) -> Result<(&'a [TokenTree], &'a [TokenTree]), &'a [TokenTree]>
{
    match past_type(trees) {
        Ok(rest) => Ok((part(trees, rest), rest)),
        Err(left) => Err(left),
    }
}

// ---- single signs

/// The trees after the sign of this class that they begin with.
fn past_sign(trees: &[TokenTree], class: SignClass) -> Option<&[TokenTree]>
{
    match first_sign(trees) {
        Some((found, rest)) => { if is(class, found) { Some(rest) } else { None } }
        None => None,
    }
}

/// The trees after the end of a list's element, which is a `,` or the end of the trees.
pub(crate) fn past_end(trees: &[TokenTree]) -> Option<&[TokenTree]>
{
    if trees.is_empty() {
        return Some(trees);
    }
    match past_sign(trees, SignClass::Comma) {
        Some(rest) => Some(rest),
        None => None,
    }
}

// ---- the parts of a parameter

/// A word, and the trees after it.
fn word_of<'a>(
    trees: &'a [TokenTree],
) -> Result<(&'a [TokenTree], &'a [TokenTree]), &'a [TokenTree]>
{
    let Some((class, rest)) = first_sign(trees) else {
        return Err(trees);
    };
    match class {
        SignClass::Word(_) => Ok((before(trees, rest), rest)),
        _ => Err(trees),
    }
}

/// The kind and the name of a parameter, and the trees after them.
fn name_of<'a>(
    trees: &'a [TokenTree],
) -> Result<(ParamKind, &'a [TokenTree], &'a [TokenTree]), &'a [TokenTree]>
{
    let Some((class, rest)) = first_sign(trees) else {
        return Err(trees);
    };
    match class {
        SignClass::Lifetime => Ok((ParamKind::Lifetime, before(trees, rest), rest)),
        SignClass::Word(_) => Ok((ParamKind::Type, before(trees, rest), rest)),
        SignClass::Keyword(Keyword::Const) => {
            let (name, after) = word_of(rest)?;
            Ok((ParamKind::Const, name, after))
        }
        _ => Err(trees),
    }
}

/// The bounds after `:`, or no trees if there is no `:`.
fn may_bounds<'a>(
    trees: &'a [TokenTree],
) -> Result<(&'a [TokenTree], &'a [TokenTree]), &'a [TokenTree]>
{
    match past_sign(trees, SignClass::Colon) {
        Some(left) => plain_bounds(left),
        None => Ok((none_of(trees), trees)),
    }
}

/// The bounds after a `:` that must be there.
fn must_bounds<'a>(
    trees: &'a [TokenTree],
) -> Result<(&'a [TokenTree], &'a [TokenTree]), &'a [TokenTree]>
{
    match past_sign(trees, SignClass::Colon) {
        Some(left) => plain_bounds(left),
        None => Err(trees),
    }
}

/// The type after a `:` that must be there.
fn must_type<'a>(
    trees: &'a [TokenTree],
) -> Result<(&'a [TokenTree], &'a [TokenTree]), &'a [TokenTree]>
{
    match past_sign(trees, SignClass::Colon) {
        Some(left) => type_of(left),
        None => Err(trees),
    }
}

/// The bounds of a lifetime or a type, or the type of a constant.
fn bounds_of<'a>(
    kind: ParamKind,
    trees: &'a [TokenTree],
) -> Result<(&'a [TokenTree], &'a [TokenTree]), &'a [TokenTree]>
{
    match kind {
        ParamKind::Lifetime => may_bounds(trees),
        ParamKind::Type => may_bounds(trees),
        ParamKind::Const => must_type(trees),
    }
}

/// No trees, as a slice of the given ones.
fn none_of(trees: &[TokenTree]) -> &[TokenTree]
{
    trees.split_at(0).0
}

fn is_constant(class: SignClass) -> bool
{
    match class {
        SignClass::Literal | SignClass::Braces | SignClass::Block | SignClass::Truth => true,
        _ => false,
    }
}

/// The default of a constant: a literal, braces, `true`, `false` or a type.
fn constant_of<'a>(
    trees: &'a [TokenTree],
) -> Result<(&'a [TokenTree], &'a [TokenTree]), &'a [TokenTree]>
{
    let Some((class, rest)) = first_sign(trees) else {
        return type_of(trees);
    };
    if is_constant(class) {
        return Ok((before(trees, rest), rest));
    }
    match class {
        SignClass::Minus => match past_sign(rest, SignClass::Literal) {
            Some(after) => Ok((before(trees, after), after)),
            None => Err(rest),
        },
        _ => type_of(trees),
    }
}

/// The type after `=`, or no trees if there is no `=`.
fn may_type<'a>(
    trees: &'a [TokenTree],
) -> Result<(&'a [TokenTree], &'a [TokenTree]), &'a [TokenTree]>
{
    match past_sign(trees, SignClass::Equals) {
        Some(left) => type_of(left),
        None => Ok((none_of(trees), trees)),
    }
}

/// The constant after `=`, or no trees if there is no `=`.
fn may_constant<'a>(
    trees: &'a [TokenTree],
) -> Result<(&'a [TokenTree], &'a [TokenTree]), &'a [TokenTree]>
{
    match past_sign(trees, SignClass::Equals) {
        Some(left) => constant_of(left),
        None => Ok((none_of(trees), trees)),
    }
}

/// The default of a parameter. A lifetime has none.
fn default_of<'a>(
    kind: ParamKind,
    trees: &'a [TokenTree],
) -> Result<(&'a [TokenTree], &'a [TokenTree]), &'a [TokenTree]>
{
    match kind {
        ParamKind::Lifetime => Ok((none_of(trees), trees)),
        ParamKind::Type => may_type(trees),
        ParamKind::Const => may_constant(trees),
    }
}
