// Made from crates/declarations/src/part_list.rt by dev/erase: change that file, not this one.
//! Lists of parts with `,` between two and perhaps after the last.
//!
//! At an error a function returns the trees from the error on.

use crate::declarations::field::{field_of, tuple_field_of};
use crate::declarations::generic_argument::argument_of;
use crate::declarations::param_parts::{param_of, predicate_of};
use crate::declarations::reader::is;
use crate::declarations::signs::first_sign;
use crate::declarations::variant::variant_of;
use crate::item_tables::class::SignClass;
use crate::pm_stream::TokenTree;

/// What the elements of a list are.
#[derive(Clone, Copy)]
pub enum Element {
    /// Named fields.
    Field,
    /// Fields without names.
    TupleField,
    /// Variants.
    Variant,
    /// Generic parameters.
    Parameter,
    /// Predicates of a where clause.
    Predicate,
    /// Generic arguments.
    Argument,
}

/// Skips an element.
fn past_element(element: Element, trees: &[TokenTree]) -> Result<&[TokenTree], &[TokenTree]>
{
    match element {
        Element::Field => Ok(field_of(trees)?.1),
        Element::TupleField => Ok(tuple_field_of(trees)?.1),
        Element::Variant => Ok(variant_of(trees)?.1),
        Element::Parameter => Ok(param_of(trees)?.1),
        Element::Predicate => Ok(predicate_of(trees)?.1),
        Element::Argument => Ok(argument_of(trees)?.1),
    }
}

/// Skips the next element and its `,`, if there are any. Returns whether there was a `,`, and the trees after it.
fn past_next(element: Element, trees: &[TokenTree]) -> Result<(bool, &[TokenTree]), &[TokenTree]>
{
    match past_element(element, trees) {
        Ok(from_comma) => match first_sign(from_comma) {
            Some((class, rest)) => {
                if is(SignClass::Comma, class) {
                    Ok((true, rest))
                } else {
                    Ok((false, from_comma))
                }
            }
            None => Ok((false, from_comma)),
        },
        Err(left) => {
            if left.len() == trees.len() {
                Ok((false, trees))
            } else {
                Err(left)
            }
        }
    }
}

/// Skips a list.
pub(crate) fn past_list(element: Element, trees: &[TokenTree]) -> Result<&[TokenTree], &[TokenTree]>
{
    let mut left = trees;
    loop {
        match past_next(element, left) {
            Ok((more, rest)) => {
                if !more {
                    return Ok(rest);
                }
                left = rest;
            }
            Err(fault) => return Err(fault),
        }
    }
}
