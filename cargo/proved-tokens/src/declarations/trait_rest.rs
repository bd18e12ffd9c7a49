// Made from crates/declarations/src/trait_rest.rt by dev/erase: change that file, not this one.
//! What traits and type aliases have after their names. Each function skips what one rule reads, and returns the trees
//! after it, or the trees from the error on.

use crate::declarations::any_item::ItemKind;
use crate::declarations::function::{past_generics, past_where};
use crate::declarations::generic_argument::past_bounds;
use crate::declarations::item_front::FoundItem;
use crate::declarations::item_rest::{past_name, past_semicolon, past_where_and_body};
use crate::declarations::parameter::past_type;
use crate::declarations::reader::{begins, is, past};
use crate::declarations::signs::first_sign;
use crate::item_tables::class::{Keyword, SignClass};
use crate::pm_stream::TokenTree;

/// Skips `:` and bounds.
fn past_colon_bounds(trees: &[TokenTree]) -> Result<&[TokenTree], &[TokenTree]>
{
    let from_bounds = past(trees, SignClass::Colon)?;
    past_bounds(from_bounds)
}

/// Skips `:` and bounds, if `:` is next.
fn may_bounds(trees: &[TokenTree]) -> Result<&[TokenTree], &[TokenTree]>
{
    if begins(trees, SignClass::Colon) {
        past_colon_bounds(trees)
    } else {
        Ok(trees)
    }
}

// ---- type aliases

/// Skips a type and a where clause.
fn past_type_and_where(trees: &[TokenTree]) -> Result<&[TokenTree], &[TokenTree]>
{
    let from_clause = past_type(trees)?;
    past_where(from_clause)
}

/// Skips `=`, the type of an alias and a where clause.
fn past_alias_type(trees: &[TokenTree]) -> Result<&[TokenTree], &[TokenTree]>
{
    let from_type = past(trees, SignClass::Equals)?;
    past_type_and_where(from_type)
}

/// Skips `=`, the type of an alias and a where clause, if `=` is next.
fn may_alias_type(trees: &[TokenTree]) -> Result<&[TokenTree], &[TokenTree]>
{
    if begins(trees, SignClass::Equals) {
        past_alias_type(trees)
    } else {
        Ok(trees)
    }
}

/// Skips the type of an alias, if it has one, and `;`.
fn past_alias_end(trees: &[TokenTree]) -> Result<&[TokenTree], &[TokenTree]>
{
    let from_end = may_alias_type(trees)?;
    past_semicolon(from_end)
}

/// Skips what a type alias has after its generic parameters.
fn past_alias_rest(trees: &[TokenTree]) -> Result<&[TokenTree], &[TokenTree]>
{
    let from_clause = may_bounds(trees)?;
    let from_value = past_where(from_clause)?;
    past_alias_end(from_value)
}

/// Skips a type alias from its name on.
pub(crate) fn past_alias(trees: &[TokenTree]) -> Result<&[TokenTree], &[TokenTree]>
{
    let from_generics = past_name(trees)?;
    let from_rest = past_generics(from_generics)?;
    past_alias_rest(from_rest)
}

// ---- traits

/// Skips a where clause and `;`.
fn past_clause_end(trees: &[TokenTree]) -> Result<&[TokenTree], &[TokenTree]>
{
    let from_end = past_where(trees)?;
    past_semicolon(from_end)
}

/// Skips `=`, the bounds of a trait alias, a where clause and `;`.
fn past_trait_alias(trees: &[TokenTree]) -> Result<&[TokenTree], &[TokenTree]>
{
    let from_bounds = past(trees, SignClass::Equals)?;
    let from_clause = past_bounds(from_bounds)?;
    past_clause_end(from_clause)
}

/// Skips the bounds of a trait, a where clause and braces.
fn past_trait_body(trees: &[TokenTree]) -> Result<&[TokenTree], &[TokenTree]>
{
    let from_clause = may_bounds(trees)?;
    past_where_and_body(from_clause)
}

/// Skips the name and the generic parameters of a trait.
fn past_header(trees: &[TokenTree]) -> Result<&[TokenTree], &[TokenTree]>
{
    match past_name(trees) {
        Ok(from_generics) => match past_generics(from_generics) {
            Ok(rest) => Ok(rest),
            Err(left) => Err(left),
        },
        Err(left) => Err(left),
    }
}

/// Reads a trait alias whose name is at the start of the trees. `rest` is after its generic parameters.
fn trait_alias_of<'a>(
    trees: &'a [TokenTree],
    rest: &'a [TokenTree],
) -> Result<FoundItem<'a>, &'a [TokenTree]>
{
    match past_trait_alias(rest) {
        Ok(after) => Ok(FoundItem {
            kind: ItemKind::TraitAlias,
            named: trees,
            rest: after,
        }),
        Err(left) => Err(left),
    }
}

/// Reads a trait whose name is at the start of the trees. `rest` is after its generic parameters.
fn trait_of<'a>(
    trees: &'a [TokenTree],
    rest: &'a [TokenTree],
) -> Result<FoundItem<'a>, &'a [TokenTree]>
{
    match past_trait_body(rest) {
        Ok(after) => Ok(FoundItem {
            kind: ItemKind::Trait,
            named: trees,
            rest: after,
        }),
        Err(left) => Err(left),
    }
}

/// Reads a trait or a trait alias after its `trait`.
pub(crate) fn past_trait(trees: &[TokenTree]) -> Result<FoundItem<'_>, &[TokenTree]>
{
    match past_header(trees) {
        Ok(rest) => {
            if begins(rest, SignClass::Equals) {
                trait_alias_of(trees, rest)
            } else {
                trait_of(trees, rest)
            }
        }
        Err(left) => Err(left),
    }
}

/// Reads a trait after its `auto`.
pub(crate) fn past_auto(trees: &[TokenTree]) -> Result<FoundItem<'_>, &[TokenTree]>
{
    match first_sign(trees) {
        Some((class, rest)) => {
            if is(SignClass::Keyword(Keyword::Trait), class) {
                past_trait(rest)
            } else {
                Err(trees)
            }
        }
        None => Err(trees),
    }
}
