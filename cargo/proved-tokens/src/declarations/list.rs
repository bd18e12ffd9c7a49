// Made from crates/declarations/src/list.rt by dev/erase: change that file, not this one.
//! Lists of fields and of variants, one element at a time.

use crate::declarations::explore::fault_at_comma;
use crate::declarations::fault::Fault;
use crate::declarations::field::{Field, parse_field, parse_tuple_field};
use crate::declarations::item::Fields;
use crate::declarations::part_syntax::{FIELD, TUPLE_FIELD, VARIANT};
use crate::declarations::variant::{Variant, parse_variant};
use crate::pm_stream::{Group, TokenTree};

/// The fields in braces or parentheses, in order. A `,` is between two fields, and may be after the last.
///
/// The iterator gives each field as [`parse_field`] reads it from the remaining trees, or as [`parse_tuple_field`] does
/// if the fields have no names. At an error it gives a `Fault`, whose `at` counts from the start of the remaining
/// trees, and then ends. It allocates nothing. For `a: A, b: B` it gives `a: A` and `b: B`.
///
/// ```text
/// for field in fields.list() {
///     let field = field?;
///     ..
/// }
/// ```
#[derive(Clone, Copy, Debug)]
pub struct FieldList<'a> {
    /// Whether the fields have names.
    pub named: bool,
    /// The trees that are not yet read.
    pub left: &'a [TokenTree],
}

/// The variants in the braces of an enum, in order. A `,` is between two variants, and may be after the last.
///
/// The iterator gives each variant as [`parse_variant`] reads it from the remaining trees. At an error it gives a
/// `Fault`, whose `at` counts from the start of the remaining trees, and then ends. It allocates nothing. For
/// `A, B(u8) = 1` it gives `A` and `B(u8) = 1`.
#[derive(Clone, Copy, Debug)]
pub struct VariantList<'a> {
    /// The trees that are not yet read.
    pub left: &'a [TokenTree],
}

impl<'a> FieldList<'a> {
    /// Returns an iterator over the named fields in this group, such as the braces of a union.
    ///
    /// # Contract
    ///
    /// - `ensures named`: <code>result.named ≡ [true]</code>
    /// - `ensures inside`: <code>[AreInside] result.left.now group.now</code>
    ///
    /// [true]: crate::contracts#std.true
    /// [AreInside]: crate::contracts#declarations.List.AreInside
    pub fn named(group: &'a Group) -> FieldList<'a>
    {
        FieldList {
            named: true,
            left: group.stream_ref().trees(),
        }
    }
}

impl<'a> Fields<'a> {
    /// Returns an iterator over the fields.
    ///
    /// # Contract
    ///
    /// - `ensures`: <code>[ListsFields] self.now result</code>
    ///
    /// [ListsFields]: crate::contracts#declarations.List.ListsFields
    pub fn list(&self) -> FieldList<'a>
    {
        match self {
            Fields::Named(group) => FieldList::named(group),
            Fields::Tuple(group) => FieldList {
                named: false,
                left: group.stream_ref().trees(),
            },
            Fields::Unit => FieldList {
                named: true,
                left: &[],
            },
        }
    }
}

impl<'a> VariantList<'a> {
    /// Returns an iterator over the variants in these braces.
    ///
    /// # Contract
    ///
    /// - `ensures`: <code>[AreInside] result.left.now group.now</code>
    ///
    /// [AreInside]: crate::contracts#declarations.List.AreInside
    pub fn new(group: &'a Group) -> VariantList<'a>
    {
        VariantList {
            left: group.stream_ref().trees(),
        }
    }
}

impl<'a> Iterator for FieldList<'a> {
    type Item = Result<Field<'a>, Fault>;

    // At most as many fields come as trees are left.

    fn next(&mut self) -> Option<Result<Field<'a>, Fault>> {
        if self.left.is_empty() {
            return None;
        }
        match first_field(self.named, self.left) {
            Ok((field, left)) => {
                self.left = left;
                Some(Ok(field))
            }
            Err(fault) => {
                self.left = &[];
                Some(Err(fault))
            }
        }
    }
}

impl<'a> Iterator for VariantList<'a> {
    type Item = Result<Variant<'a>, Fault>;

    fn next(&mut self) -> Option<Result<Variant<'a>, Fault>> {
        if self.left.is_empty() {
            return None;
        }
        match first_variant(self.left) {
            Ok((variant, left)) => {
                self.left = left;
                Some(Ok(variant))
            }
            Err(fault) => {
                self.left = &[];
                Some(Err(fault))
            }
        }
    }
}

/// The first field of a list, and the trees after its comma.
fn first_field(named: bool, trees: &[TokenTree]) -> Result<(Field<'_>, &[TokenTree]), Fault>
{
    match field_at(named, trees) {
        Ok((field, rest)) => match past_comma(rest) {
            Some(left) => Ok((field, left)),
            None => Err(fault_after_field(named, trees, rest)),
        },
        Err(fault) => Err(fault),
    }
}

/// The field at the start of the trees, with a name or without, and the trees after it.
fn field_at(named: bool, trees: &[TokenTree]) -> Result<(Field<'_>, &[TokenTree]), Fault>
{
    if named {
        parse_field(trees)
    } else {
        parse_tuple_field(trees)
    }
}

/// The error after a field that neither `,` nor the end follows.
#[cold]
fn fault_after_field(named: bool, trees: &[TokenTree], rest: &[TokenTree]) -> Fault
{
    if named {
        fault_at_comma(&FIELD, trees, rest)
    } else {
        fault_at_comma(&TUPLE_FIELD, trees, rest)
    }
}

/// The first variant of a list, and the trees after its comma.
fn first_variant(trees: &[TokenTree]) -> Result<(Variant<'_>, &[TokenTree]), Fault>
{
    match parse_variant(trees) {
        Ok((variant, rest)) => match past_comma(rest) {
            Some(left) => Ok((variant, left)),
            None => Err(fault_at_comma(&VARIANT, trees, rest)),
        },
        Err(fault) => Err(fault),
    }
}

/// The trees after the comma that they begin with, or no trees if there are none.
pub(crate) fn past_comma(trees: &[TokenTree]) -> Option<&[TokenTree]>
{
    match trees.split_first() {
        None => Some(trees),
        Some((TokenTree::Punct(mark), rest)) if mark.as_char() == ',' => Some(rest),
        Some(_) => None,
    }
}
