// Made from crates/item_headers/src/params.rt by dev/erase: change that file, not this one.
//! The generic parameters and arguments of an item.

use crate::item_headers::errors::HeaderError;
use crate::item_headers::lists::{Lead, push_lead, push_led, push_mark, push_trees, push_word};
use crate::declarations::{Param, ParamKind, TypeItem, parse_param, within_generics};
use crate::proc_macro2::{IdentError, TokenStream, TokenTree};
use crate::quoting::Quote;

/// Which part of a parameter is written.
#[derive(Clone, Copy)]
pub(crate) enum Form {
    /// The parameter without its default.
    Declared,
    /// Only the name of the parameter.
    Named,
}

/// Returns the generic parameters of an `impl` for the item: the item's own, with attributes but without defaults.
///
/// For `struct S<'a, T: A = B, const N: usize = 3>` they are `<'a, T: A, const N: usize>`. The stream is empty if the
/// item has none. The error is `Fault` if the trees are not the generic parameters of an item.
///
/// # Contract
///
/// - `ensures ok`: <code>[IfOk] result (λ stream. (params : [List] [ParamTrees]) × [HasParams]
///   item.now.generics.now params × (stream ≡ [impl_generics] params))</code>
/// - `ensures fault`: <code>[IfErr] result (λ error. [IfFault] error ([HasNoParams]
///   item.now.generics.now))</code>
///
/// [IfOk]: crate::contracts#std.IfOk
/// [List]: crate::contracts#std.List
/// [ParamTrees]: crate::contracts#declarations.Param.ParamTrees
/// [HasParams]: crate::contracts#item_headers.Header.HasParams
/// [impl_generics]: crate::contracts#item_headers.Header.impl_generics
/// [IfErr]: crate::contracts#std.IfErr
/// [IfFault]: crate::contracts#item_headers.Fault.IfFault
/// [HasNoParams]: crate::contracts#item_headers.Fault.HasNoParams
pub fn impl_generics(item: &TypeItem<'_>) -> Result<TokenStream, HeaderError>
{
    let mut quote = Quote::new();
    push_generics(
        &mut quote,
        item.generics,
        Lead::Angle,
        Form::Declared,
    )?;
    Ok(quote.into_stream())
}

/// Returns the generic arguments of the item's type: the names of its parameters in order.
///
/// For `struct S<'a, T: A = B, const N: usize = 3>` they are `<'a, T, N>`. The stream is empty if the item has no
/// parameters. The errors are those of [`impl_generics`].
///
/// # Contract
///
/// - `ensures ok`: <code>[IfOk] result (λ stream. (params : [List] [ParamTrees]) × [HasParams]
///   item.now.generics.now params × (stream ≡ [type_generics] params))</code>
/// - `ensures fault`: <code>[IfErr] result (λ error. [IfFault] error ([HasNoParams]
///   item.now.generics.now))</code>
///
/// [IfOk]: crate::contracts#std.IfOk
/// [List]: crate::contracts#std.List
/// [ParamTrees]: crate::contracts#declarations.Param.ParamTrees
/// [HasParams]: crate::contracts#item_headers.Header.HasParams
/// [type_generics]: crate::contracts#item_headers.Header.type_generics
/// [IfErr]: crate::contracts#std.IfErr
/// [IfFault]: crate::contracts#item_headers.Fault.IfFault
/// [HasNoParams]: crate::contracts#item_headers.Fault.HasNoParams
pub fn type_generics(item: &TypeItem<'_>) -> Result<TokenStream, HeaderError>
{
    let mut quote = Quote::new();
    push_generics(&mut quote, item.generics, Lead::Angle, Form::Named)?;
    Ok(quote.into_stream())
}

/// Returns the generic arguments of the item's type as an expression needs them, such as `::<'a, T, N>`.
///
/// The stream is empty if the item has no parameters. The errors are those of [`impl_generics`].
///
/// # Contract
///
/// - `ensures ok`: <code>[IfOk] result (λ stream. (params : [List] [ParamTrees]) × [HasParams]
///   item.now.generics.now params × (stream ≡ [turbofish] params))</code>
/// - `ensures fault`: <code>[IfErr] result (λ error. [IfFault] error ([HasNoParams]
///   item.now.generics.now))</code>
///
/// [IfOk]: crate::contracts#std.IfOk
/// [List]: crate::contracts#std.List
/// [ParamTrees]: crate::contracts#declarations.Param.ParamTrees
/// [HasParams]: crate::contracts#item_headers.Header.HasParams
/// [turbofish]: crate::contracts#item_headers.Header.turbofish
/// [IfErr]: crate::contracts#std.IfErr
/// [IfFault]: crate::contracts#item_headers.Fault.IfFault
/// [HasNoParams]: crate::contracts#item_headers.Fault.HasNoParams
pub fn turbofish(item: &TypeItem<'_>) -> Result<TokenStream, HeaderError>
{
    let mut quote = Quote::new();
    push_generics(
        &mut quote,
        item.generics,
        Lead::Turbofish,
        Form::Named,
    )?;
    Ok(quote.into_stream())
}

/// Writes the parameters in angle brackets at the end of the quote, or nothing if there are none.
pub(crate) fn push_generics(
    quote: &mut Quote,
    trees: &[TokenTree],
    lead: Lead,
    form: Form,
) -> Result<(), HeaderError>
{
    let mut left = within_generics(trees)?;
    let mut any = false;
    while !left.is_empty() {
        let (param, rest) = parse_param(left)?;
        push_lead(quote, lead, any)?;
        push_param(quote, &param, form)?;
        any = true;
        left = rest;
    }
    if any {
        return Ok(push_mark(quote, '>')?);
    }
    Ok(())
}

/// Writes a parameter in the given form at the end of the quote.
fn push_param(
    quote: &mut Quote,
    param: &Param<'_>,
    form: Form,
) -> Result<(), IdentError>
{
    match form {
        Form::Declared => push_declared(quote, param),
        Form::Named => Ok(push_trees(quote, param.name)?),
    }
}

/// Writes a parameter without its default at the end of the quote.
fn push_declared(quote: &mut Quote, param: &Param<'_>) -> Result<(), IdentError>
{
    push_trees(quote, param.attributes)?;
    push_keyword(quote, param.kind)?;
    push_trees(quote, param.name)?;
    Ok(push_led(quote, param.bounds)?)
}

/// Writes the keyword of a parameter, if it has one, at the end of the quote.
fn push_keyword(quote: &mut Quote, kind: ParamKind) -> Result<(), IdentError>
{
    match kind {
        ParamKind::Lifetime => Ok(()),
        ParamKind::Type => Ok(()),
        ParamKind::Const => push_word(quote, "const"),
    }
}
