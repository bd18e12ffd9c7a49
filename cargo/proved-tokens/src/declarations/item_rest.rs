// Made from crates/declarations/src/item_rest.rt by dev/erase: change that file, not this one.
//! What items have after their names. Each function skips what one rule reads, and returns the trees after it, or the
//! trees from the error on.

use crate::declarations::function::{is_name, past_generics, past_returning, past_where};
use crate::declarations::parameter::past_type;
use crate::declarations::reader::{begins, is, past};
use crate::declarations::signs::first_sign;
use crate::declarations::type_path::is_round;
use crate::item_tables::class::SignClass;
use crate::pm_stream::TokenTree;

// ---- single signs

/// Whether a word, which can be a name, is next.
pub(crate) fn begins_word(trees: &[TokenTree]) -> bool
{
    match first_sign(trees) {
        Some((class, _)) => is_name(class),
        None => false,
    }
}

/// Skips a name.
pub(crate) fn past_name(trees: &[TokenTree]) -> Result<&[TokenTree], &[TokenTree]>
{
    match first_sign(trees) {
        Some((class, rest)) => { if is_name(class) { Ok(rest) } else { Err(trees) } }
        None => Err(trees),
    }
}

/// Skips `;`.
pub(crate) fn past_semicolon(trees: &[TokenTree]) -> Result<&[TokenTree], &[TokenTree]>
{
    past(trees, SignClass::Semicolon)
}

/// Skips a body in braces.
pub(crate) fn past_braces(trees: &[TokenTree]) -> Result<&[TokenTree], &[TokenTree]>
{
    past(trees, SignClass::Braces)
}

/// Skips a body in braces, or `;`.
pub(crate) fn past_body_end(trees: &[TokenTree]) -> Result<&[TokenTree], &[TokenTree]>
{
    if begins(trees, SignClass::Braces) {
        past_braces(trees)
    } else {
        past_semicolon(trees)
    }
}

/// Whether a group in parentheses is next.
fn begins_round(trees: &[TokenTree]) -> bool
{
    match first_sign(trees) {
        Some((class, _)) => is_round(class),
        None => false,
    }
}

/// Skips a group in parentheses.
fn past_round(trees: &[TokenTree]) -> Result<&[TokenTree], &[TokenTree]>
{
    match first_sign(trees) {
        Some((class, rest)) => {
            if is_round(class) {
                Ok(rest)
            } else {
                Err(trees)
            }
        }
        None => Err(trees),
    }
}

/// Skips a group in parentheses, if one is next.
pub(crate) fn may_round(trees: &[TokenTree]) -> Result<&[TokenTree], &[TokenTree]>
{
    if begins_round(trees) {
        past_round(trees)
    } else {
        Ok(trees)
    }
}

// ---- structs, enums and unions

/// Skips the fields of a tuple struct, a where clause and `;`.
fn past_tuple(trees: &[TokenTree]) -> Result<&[TokenTree], &[TokenTree]>
{
    let from_clause = past_round(trees)?;
    let from_end = past_where(from_clause)?;
    past_semicolon(from_end)
}

/// Skips a where clause, and braces or `;`.
fn past_plain(trees: &[TokenTree]) -> Result<&[TokenTree], &[TokenTree]>
{
    let from_end = past_where(trees)?;
    past_body_end(from_end)
}

/// Skips what a struct has after its generic parameters.
fn past_struct_rest(trees: &[TokenTree]) -> Result<&[TokenTree], &[TokenTree]>
{
    if begins_round(trees) {
        past_tuple(trees)
    } else {
        past_plain(trees)
    }
}

/// Skips a struct from its name on.
pub(crate) fn past_struct(trees: &[TokenTree]) -> Result<&[TokenTree], &[TokenTree]>
{
    let from_generics = past_name(trees)?;
    let from_rest = past_generics(from_generics)?;
    past_struct_rest(from_rest)
}

/// Skips a where clause and braces.
pub(crate) fn past_where_and_body(trees: &[TokenTree]) -> Result<&[TokenTree], &[TokenTree]>
{
    let from_body = past_where(trees)?;
    past_braces(from_body)
}

/// Skips an enum or a union from its name on.
pub(crate) fn past_enum(trees: &[TokenTree]) -> Result<&[TokenTree], &[TokenTree]>
{
    let from_generics = past_name(trees)?;
    let from_clause = past_generics(from_generics)?;
    past_where_and_body(from_clause)
}

// ---- functions

/// Skips what a function has after its generic parameters.
fn past_function_rest(trees: &[TokenTree]) -> Result<&[TokenTree], &[TokenTree]>
{
    let from_return = past_round(trees)?;
    past_returning(from_return)
}

/// Skips a function from its name on.
pub(crate) fn past_function(trees: &[TokenTree]) -> Result<&[TokenTree], &[TokenTree]>
{
    let from_generics = past_name(trees)?;
    let from_parameters = past_generics(from_generics)?;
    past_function_rest(from_parameters)
}

// ---- constants and statics

/// Whether the sign can be in the expression of a constant.
fn goes_on(class: SignClass) -> bool
{
    !is(SignClass::Semicolon, class)
}

/// Skips one more sign of an expression, if one is next.
fn value_sign(trees: &[TokenTree]) -> Option<&[TokenTree]>
{
    match first_sign(trees) {
        Some((class, rest)) => { if goes_on(class) { Some(rest) } else { None } }
        None => None,
    }
}

/// Skips the signs before `;`.
fn value_signs(trees: &[TokenTree]) -> &[TokenTree]
{
    let mut left = trees;
    while let Some(next) = value_sign(left) {
        left = next;
    }
    left
}

/// Skips the expression of a constant, up to its `;`.
fn past_until(trees: &[TokenTree]) -> Result<&[TokenTree], &[TokenTree]>
{
    match value_sign(trees) {
        Some(rest) => Ok(value_signs(rest)),
        None => Err(trees),
    }
}

/// Skips `=` and the expression of a constant.
fn past_value(trees: &[TokenTree]) -> Result<&[TokenTree], &[TokenTree]>
{
    let from_value = past(trees, SignClass::Equals)?;
    past_until(from_value)
}

/// Skips `=` and the expression of a constant, if `=` is next.
fn may_value(trees: &[TokenTree]) -> Result<&[TokenTree], &[TokenTree]>
{
    if begins(trees, SignClass::Equals) {
        past_value(trees)
    } else {
        Ok(trees)
    }
}

/// Skips the value of a constant or a static, if it has one, and `;`.
fn past_constant_end(trees: &[TokenTree]) -> Result<&[TokenTree], &[TokenTree]>
{
    let from_end = may_value(trees)?;
    past_semicolon(from_end)
}

/// Skips the type of a constant or a static, and its value.
fn past_typed(trees: &[TokenTree]) -> Result<&[TokenTree], &[TokenTree]>
{
    let from_type = past(trees, SignClass::Colon)?;
    let from_value = past_type(from_type)?;
    past_constant_end(from_value)
}

/// Skips what a constant has after its name.
pub(crate) fn past_constant_rest(trees: &[TokenTree]) -> Result<&[TokenTree], &[TokenTree]>
{
    let from_type = past_generics(trees)?;
    past_typed(from_type)
}

/// Skips a static from its name on.
pub(crate) fn past_static_rest(trees: &[TokenTree]) -> Result<&[TokenTree], &[TokenTree]>
{
    let from_type = past_name(trees)?;
    past_typed(from_type)
}
