// Made from crates/declarations/src/variant.rt by dev/erase: change that file, not this one.
//! The variants of an enum.

use crate::declarations::entry::past_expression;
use crate::declarations::explore::fault_by;
use crate::declarations::fault::Fault;
use crate::declarations::front::front_of;
use crate::declarations::function::name_of;
use crate::declarations::item::{Fields, split_braces, split_parentheses};
use crate::declarations::part_syntax::VARIANT;
use crate::declarations::reader::{is, part};
use crate::declarations::signs::first_sign;
use crate::item_tables::class::SignClass;
use crate::pm_stream::TokenTree;
use crate::pm_token::Ident;

/// A variant of an enum, split into its parts in reading order.
#[derive(Clone, Copy, Debug)]
pub struct Variant<'a> {
    /// The outer attributes, perhaps none.
    pub attributes: &'a [TokenTree],
    /// The visibility, or no trees. Only the input of a macro can have one.
    pub visibility: &'a [TokenTree],
    /// The name.
    pub name: &'a Ident,
    /// The fields, or `Unit` if the variant has none.
    pub fields: Fields<'a>,
    /// The expression after `=`, or no trees. For `= -1` it is two trees, `-` and `1`.
    pub discriminant: &'a [TokenTree],
}

/// Returns the parts of the variant at the start of the trees, and the trees after it.
///
/// It reads the same trees as [`split_variant`](crate::declarations::split_variant), and returns the same errors. For
/// `#[a] B { c: D } = 1, C` the name is `B`, the fields are those in the braces, the discriminant is `1`, and the rest
/// is `, C`.
///
/// # Contract
///
/// - `ensures ok`: <code>[IfOk] result (λ found. [IsVariantAt] trees.now found.0 found.1.now)</code>
/// - `ensures fault`: <code>[IfErr] result (λ fault. [FaultAt] [IsVariant] trees.now fault.at)</code>
/// - `ensures span`: <code>[IfErr] result (λ fault. fault.span ≡ [extent_at] trees.now fault.at)</code>
/// - `ensures expected`: <code>[IfErr] result (λ fault. [Expects] [IsVariant] trees.now fault.at
///   fault.expected)</code>
///
/// [IfOk]: crate::contracts#std.IfOk
/// [IsVariantAt]: crate::contracts#declarations.Variant.IsVariantAt
/// [IfErr]: crate::contracts#std.IfErr
/// [FaultAt]: crate::contracts#declarations.Reading.FaultAt
/// [IsVariant]: crate::contracts#declarations.Forms.IsVariant
/// [extent_at]: crate::contracts#declarations.Fault.extent_at
/// [Expects]: crate::contracts#declarations.Expected.Expects
pub fn parse_variant(trees: &[TokenTree]) -> Result<(Variant<'_>, &[TokenTree]), Fault>
{
    match variant_of(trees) {
        Ok((variant, rest)) => Ok((variant, rest)),
        Err(left) => Err(fault_by(&VARIANT, trees, left)),
    }
}

/// Reads a variant. Returns it and the trees after it, or the trees from the error on.
pub(crate) fn variant_of(trees: &[TokenTree]) -> Result<(Variant<'_>, &[TokenTree]), &[TokenTree]>
{
    match front_of(trees) {
        Ok((front, from_name)) => match named_of(from_name) {
            Ok((named, rest)) => {
                let variant = Variant {
                    attributes: front.attributes,
                    visibility: front.visibility,
                    name: named.name,
                    fields: named.fields,
                    discriminant: named.discriminant,
                };
                Ok((variant, rest))
            }
            Err(left) => Err(left),
        },
        Err(left) => Err(left),
    }
}

/// The parts of a variant after its visibility.
#[derive(Clone, Copy)]
struct Named<'a> {
    name: &'a Ident,
    fields: Fields<'a>,
    discriminant: &'a [TokenTree],
}

/// Reads a variant from its name on. Returns the parts and the trees after them.
fn named_of(trees: &[TokenTree]) -> Result<(Named<'_>, &[TokenTree]), &[TokenTree]>
{
    match name_of(trees) {
        Ok((name, from_fields)) => {
            let (fields, from_value) = fields_of(from_fields);
            match discriminant_of(from_value) {
                Ok((discriminant, rest)) => {
                    let named = Named {
                        name,
                        fields,
                        discriminant,
                    };
                    Ok((named, rest))
                }
                Err(left) => Err(left),
            }
        }
        Err(left) => Err(left),
    }
}

/// Reads the fields of a variant, if parentheses or braces are next. Returns them and the trees after them.
fn fields_of(trees: &[TokenTree]) -> (Fields<'_>, &[TokenTree])
{
    match split_parentheses(trees) {
        Some((group, rest)) => (Fields::Tuple(group), rest),
        None => match split_braces(trees) {
            Some((group, rest)) => (Fields::Named(group), rest),
            None => (Fields::Unit, trees),
        },
    }
}

/// Reads `=` and an expression, if `=` is next. Returns the expression, or no trees, and the trees after it.
fn discriminant_of(trees: &[TokenTree]) -> Result<(&[TokenTree], &[TokenTree]), &[TokenTree]>
{
    match first_sign(trees) {
        Some((class, from_value)) => {
            if is(SignClass::Equals, class) {
                match past_expression(from_value) {
                    Ok(rest) => Ok((part(from_value, rest), rest)),
                    Err(left) => Err(left),
                }
            } else {
                Ok((&[], trees))
            }
        }
        None => Ok((&[], trees)),
    }
}
