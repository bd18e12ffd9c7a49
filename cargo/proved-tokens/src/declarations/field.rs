// Made from crates/declarations/src/field.rt by dev/erase: change that file, not this one.
//! The fields of a struct, a variant or a union.

use crate::declarations::explore::fault_by;
use crate::declarations::fault::Fault;
use crate::declarations::front::front_of;
use crate::declarations::function::name_of;
use crate::declarations::parameter::past_type;
use crate::declarations::part_syntax::{FIELD, TUPLE_FIELD};
use crate::declarations::reader::{is, part};
use crate::declarations::signs::first_sign;
use crate::item_tables::class::SignClass;
use crate::pm_stream::TokenTree;
use crate::pm_token::Ident;

/// A field, split into its parts in reading order.
#[derive(Clone, Copy, Debug)]
pub struct Field<'a> {
    /// The outer attributes, perhaps none.
    pub attributes: &'a [TokenTree],
    /// The visibility, or no trees.
    pub visibility: &'a [TokenTree],
    /// The name before the `:`, or `None` for a field in parentheses.
    pub name: Option<&'a Ident>,
    /// The type.
    pub field_type: &'a [TokenTree],
}

/// Returns the parts of the named field at the start of the trees, and the trees after it.
///
/// It reads the same trees as [`split_field`](crate::declarations::split_field), and returns the same errors. For
/// `#[a] pub x: Vec<A, B>, y: C` the name is `x`, the type is `Vec<A, B>`, and the rest is `, y: C`.
///
/// # Contract
///
/// - `ensures ok`: <code>[IfOk] result (λ found. [IsFieldAt] [IsField] [HasFieldParts] trees.now found.0
///   found.1.now)</code>
/// - `ensures fault`: <code>[IfErr] result (λ fault. [FaultAt] [IsField] trees.now fault.at)</code>
/// - `ensures span`: <code>[IfErr] result (λ fault. fault.span ≡ [extent_at] trees.now fault.at)</code>
/// - `ensures expected`: <code>[IfErr] result (λ fault. [Expects] [IsField] trees.now fault.at
///   fault.expected)</code>
///
/// [IfOk]: crate::contracts#std.IfOk
/// [IsFieldAt]: crate::contracts#declarations.Field.IsFieldAt
/// [IsField]: crate::contracts#declarations.Forms.IsField
/// [HasFieldParts]: crate::contracts#declarations.Field.HasFieldParts
/// [IfErr]: crate::contracts#std.IfErr
/// [FaultAt]: crate::contracts#declarations.Reading.FaultAt
/// [extent_at]: crate::contracts#declarations.Fault.extent_at
/// [Expects]: crate::contracts#declarations.Expected.Expects
pub fn parse_field(trees: &[TokenTree]) -> Result<(Field<'_>, &[TokenTree]), Fault>
{
    match field_of(trees) {
        Ok((field, rest)) => Ok((field, rest)),
        Err(left) => Err(fault_by(&FIELD, trees, left)),
    }
}

/// Returns the parts of the field without a name at the start of the trees, and the trees after it.
///
/// It reads the same trees as [`split_tuple_field`](crate::declarations::split_tuple_field), and returns the same
/// errors. For `pub (A, B), C` the type is `(A, B)`, and the rest is `, C`.
///
/// # Contract
///
/// - `ensures ok`: <code>[IfOk] result (λ found. [IsFieldAt] [IsTupleField] [HasTypeParts] trees.now found.0
///   found.1.now)</code>
/// - `ensures fault`: <code>[IfErr] result (λ fault. [FaultAt] [IsTupleField] trees.now fault.at)</code>
/// - `ensures span`: <code>[IfErr] result (λ fault. fault.span ≡ [extent_at] trees.now fault.at)</code>
/// - `ensures expected`: <code>[IfErr] result (λ fault. [Expects] [IsTupleField] trees.now fault.at
///   fault.expected)</code>
///
/// [IfOk]: crate::contracts#std.IfOk
/// [IsFieldAt]: crate::contracts#declarations.Field.IsFieldAt
/// [IsTupleField]: crate::contracts#declarations.Forms.IsTupleField
/// [HasTypeParts]: crate::contracts#declarations.Field.HasTypeParts
/// [IfErr]: crate::contracts#std.IfErr
/// [FaultAt]: crate::contracts#declarations.Reading.FaultAt
/// [extent_at]: crate::contracts#declarations.Fault.extent_at
/// [Expects]: crate::contracts#declarations.Expected.Expects
pub fn parse_tuple_field(trees: &[TokenTree]) -> Result<(Field<'_>, &[TokenTree]), Fault>
{
    match tuple_field_of(trees) {
        Ok((field, rest)) => Ok((field, rest)),
        Err(left) => Err(fault_by(&TUPLE_FIELD, trees, left)),
    }
}

/// Reads a named field. Returns it and the trees after it, or the trees from the error on.
pub(crate) fn field_of(trees: &[TokenTree]) -> Result<(Field<'_>, &[TokenTree]), &[TokenTree]>
{
    match front_of(trees) {
        Ok((front, from_name)) => match named_type_of(from_name) {
            Ok((name, field_type, rest)) => {
                let field = Field {
                    attributes: front.attributes,
                    visibility: front.visibility,
                    name: Some(name),
                    field_type,
                };
                Ok((field, rest))
            }
            Err(left) => Err(left),
        },
        Err(left) => Err(left),
    }
}

/// Reads a name, `:` and a type. Returns the name, the type and the trees after it.
fn named_type_of(trees: &[TokenTree]) -> Result<(&Ident, &[TokenTree], &[TokenTree]), &[TokenTree]>
{
    match name_of(trees) {
        Ok((name, from_colon)) => match colon_type_of(from_colon) {
            Ok((field_type, rest)) => Ok((name, field_type, rest)),
            Err(left) => Err(left),
        },
        Err(left) => Err(left),
    }
}

/// Reads `:` and a type. Returns the type and the trees after it.
fn colon_type_of(trees: &[TokenTree]) -> Result<(&[TokenTree], &[TokenTree]), &[TokenTree]>
{
    match first_sign(trees) {
        Some((class, from_type)) => {
            if is(SignClass::Colon, class) {
                match past_type(from_type) {
                    Ok(rest) => Ok((part(from_type, rest), rest)),
                    Err(left) => Err(left),
                }
            } else {
                Err(trees)
            }
        }
        None => Err(trees),
    }
}

/// Reads a field without a name. Returns it and the trees after it, or the trees from the error on.
///
/// Parentheses after `pub` that can be a restriction are one, as the rule `tuple-field` says.
pub(crate) fn tuple_field_of(trees: &[TokenTree]) -> Result<(Field<'_>, &[TokenTree]), &[TokenTree]>
{
    match front_of(trees) {
        Ok((front, from_type)) => match past_type(from_type) {
            Ok(rest) => {
                let field = Field {
                    attributes: front.attributes,
                    visibility: front.visibility,
                    name: None,
                    field_type: part(from_type, rest),
                };
                Ok((field, rest))
            }
            Err(left) => Err(left),
        },
        Err(left) => Err(left),
    }
}
