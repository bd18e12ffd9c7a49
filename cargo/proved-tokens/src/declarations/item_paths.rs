// Made from crates/declarations/src/item_paths.rt by dev/erase: change that file, not this one.
//! Macros, macro calls, imports and external crates. Each function skips what one rule reads, and returns the trees
//! after it, or the trees from the error on.

use crate::declarations::function::is_name;
use crate::declarations::item_rest::{
    begins_word, may_round, past_body_end, past_braces, past_name, past_semicolon,
};
use crate::declarations::reader::{begins, is, past};
use crate::declarations::signs::first_sign;
use crate::item_tables::class::SignClass;
use crate::pm_stream::TokenTree;

// ---- macros and modules

/// Skips a macro from its name on.
pub(crate) fn past_macro(trees: &[TokenTree]) -> Result<&[TokenTree], &[TokenTree]>
{
    let from_parameters = past_name(trees)?;
    let from_body = may_round(from_parameters)?;
    past_braces(from_body)
}

/// Skips a module from its name on.
pub(crate) fn past_module(trees: &[TokenTree]) -> Result<&[TokenTree], &[TokenTree]>
{
    let from_body = past_name(trees)?;
    past_body_end(from_body)
}

// ---- macro calls

/// Whether the sign is a group of a macro call that `;` must follow.
pub(crate) fn is_call_group(class: SignClass) -> bool
{
    match class {
        SignClass::Parentheses | SignClass::Restriction | SignClass::Brackets => true,
        _ => false,
    }
}

/// Skips a group of a macro call that `;` must follow.
fn past_call_group(trees: &[TokenTree]) -> Result<&[TokenTree], &[TokenTree]>
{
    match first_sign(trees) {
        Some((class, rest)) => {
            if is_call_group(class) {
                Ok(rest)
            } else {
                Err(trees)
            }
        }
        None => Err(trees),
    }
}

/// Skips the group of a macro call in parentheses or brackets, and `;`.
fn past_round_call(trees: &[TokenTree]) -> Result<&[TokenTree], &[TokenTree]>
{
    let from_end = past_call_group(trees)?;
    past_semicolon(from_end)
}

/// Skips the group of a macro call, and the `;` that must follow parentheses and brackets.
fn past_call_end(trees: &[TokenTree]) -> Result<&[TokenTree], &[TokenTree]>
{
    if begins(trees, SignClass::Braces) {
        past_braces(trees)
    } else {
        past_round_call(trees)
    }
}

/// Skips a name and the group of a macro call.
fn past_named_call(trees: &[TokenTree]) -> Result<&[TokenTree], &[TokenTree]>
{
    let from_group = past_name(trees)?;
    past_call_end(from_group)
}

/// Skips what a macro call has after its `!`.
pub(crate) fn past_call_name(trees: &[TokenTree]) -> Result<&[TokenTree], &[TokenTree]>
{
    if begins_word(trees) {
        past_named_call(trees)
    } else {
        past_call_end(trees)
    }
}

/// Whether the sign can be a segment of a path.
pub(crate) fn is_segment(class: SignClass) -> bool
{
    match class {
        SignClass::Word(_) | SignClass::SelfValue | SignClass::Super | SignClass::Crate => true,
        _ => false,
    }
}

/// Skips a segment of a path.
pub(crate) fn past_segment(trees: &[TokenTree]) -> Result<&[TokenTree], &[TokenTree]>
{
    match first_sign(trees) {
        Some((class, rest)) => {
            if is_segment(class) {
                Ok(rest)
            } else {
                Err(trees)
            }
        }
        None => Err(trees),
    }
}

/// Skips `::` and a segment of a path.
fn past_further(trees: &[TokenTree]) -> Result<&[TokenTree], &[TokenTree]>
{
    let from_segment = past(trees, SignClass::PathSeparator)?;
    past_segment(from_segment)
}

/// Whether `::` and a segment of a path are next, if the trees fit.
fn begins_further(trees: &[TokenTree]) -> bool
{
    begins(trees, SignClass::PathSeparator)
}

/// Skips the segments of a path after the first one.
pub(crate) fn past_segments(trees: &[TokenTree]) -> Result<&[TokenTree], &[TokenTree]>
{
    let mut left = trees;
    while begins_further(left) {
        match past_further(left) {
            Ok(next) => left = next,
            Err(fault) => return Err(fault),
        }
    }
    Ok(left)
}

// ---- imports and external crates

/// Whether the sign is a name or `_`.
pub(crate) fn is_new_name(class: SignClass) -> bool
{
    is_name(class) || is(SignClass::Underscore, class)
}

/// Skips a name or `_`.
fn past_new_name(trees: &[TokenTree]) -> Result<&[TokenTree], &[TokenTree]>
{
    match first_sign(trees) {
        Some((class, rest)) => {
            if is_new_name(class) {
                Ok(rest)
            } else {
                Err(trees)
            }
        }
        None => Err(trees),
    }
}

/// Skips `as` and a name or `_`.
fn past_as(trees: &[TokenTree]) -> Result<&[TokenTree], &[TokenTree]>
{
    let from_name = past(trees, SignClass::As)?;
    past_new_name(from_name)
}

/// Skips `as` and a name or `_`, if `as` is next.
fn may_as(trees: &[TokenTree]) -> Result<&[TokenTree], &[TokenTree]>
{
    if begins(trees, SignClass::As) {
        past_as(trees)
    } else {
        Ok(trees)
    }
}

/// Skips the end of an import after the last segment of its path.
fn past_use_end(trees: &[TokenTree]) -> Result<&[TokenTree], &[TokenTree]>
{
    let from_end = may_as(trees)?;
    past_semicolon(from_end)
}

/// Whether the sign is `*` or braces.
pub(crate) fn is_use_list(class: SignClass) -> bool
{
    match class {
        SignClass::Star | SignClass::Braces => true,
        _ => false,
    }
}

/// Skips `*` or braces.
fn past_use_sign(trees: &[TokenTree]) -> Result<&[TokenTree], &[TokenTree]>
{
    match first_sign(trees) {
        Some((class, rest)) => {
            if is_use_list(class) {
                Ok(rest)
            } else {
                Err(trees)
            }
        }
        None => Err(trees),
    }
}

/// Skips the end of an import from its `*` or its braces on.
fn past_use_list(trees: &[TokenTree]) -> Result<&[TokenTree], &[TokenTree]>
{
    let from_end = past_use_sign(trees)?;
    past_semicolon(from_end)
}

/// The trees after `::`, if `::` is next.
fn may_separator(trees: &[TokenTree]) -> Option<&[TokenTree]>
{
    match first_sign(trees) {
        Some((class, rest)) => {
            if is(SignClass::PathSeparator, class) {
                Some(rest)
            } else {
                None
            }
        }
        None => None,
    }
}

/// Skips a segment of an import's path and `::`. If these are not next, it skips the rest of the import.
fn use_step(trees: &[TokenTree]) -> Result<&[TokenTree], Result<&[TokenTree], &[TokenTree]>>
{
    match first_sign(trees) {
        Some((class, rest)) => {
            if is_segment(class) {
                match may_separator(rest) {
                    Some(next) => Ok(next),
                    None => Err(past_use_end(rest)),
                }
            } else {
                Err(past_use_list(trees))
            }
        }
        None => Err(Err(trees)),
    }
}

/// Skips an import from a segment of its path, `*` or braces on.
fn past_use_path(trees: &[TokenTree]) -> Result<&[TokenTree], &[TokenTree]>
{
    let mut left = trees;
    loop {
        match use_step(left) {
            Ok(next) => left = next,
            Err(end) => return end,
        }
    }
}

/// Skips an import after its `use`.
pub(crate) fn past_use(trees: &[TokenTree]) -> Result<&[TokenTree], &[TokenTree]>
{
    match first_sign(trees) {
        Some((class, rest)) => {
            if is(SignClass::PathSeparator, class) {
                past_use_path(rest)
            } else {
                past_use_path(trees)
            }
        }
        None => Err(trees),
    }
}

/// Whether the sign is the name of an external crate, or `self`.
pub(crate) fn is_crate_name(class: SignClass) -> bool
{
    is_name(class) || is(SignClass::SelfValue, class)
}

/// Skips the name of an external crate, or `self`.
fn past_crate_name(trees: &[TokenTree]) -> Result<&[TokenTree], &[TokenTree]>
{
    match first_sign(trees) {
        Some((class, rest)) => {
            if is_crate_name(class) {
                Ok(rest)
            } else {
                Err(trees)
            }
        }
        None => Err(trees),
    }
}

/// Skips an external crate from its name on.
pub(crate) fn past_crate(trees: &[TokenTree]) -> Result<&[TokenTree], &[TokenTree]>
{
    let from_as = past_crate_name(trees)?;
    past_use_end(from_as)
}
