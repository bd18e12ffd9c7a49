// Made from crates/item_headers/src/header.rt by dev/erase: change that file, not this one.
//! The header of an `impl`.

use crate::shim::prelude::TryClone;

use crate::item_headers::clauses::push_where;
use crate::item_headers::errors::HeaderError;
use crate::item_headers::lists::{Lead, push_word};
use crate::item_headers::params::{Form, push_generics};
use crate::declarations::TypeItem;
use crate::proc_macro2::{TokenStream, TokenTree};
use crate::quoting::Quote;

/// Returns the header of an `impl` of a trait for the item's type: all that comes before the braces.
///
/// For `struct S<'a, T: A = B> where T: C { .. }` and the trait `D<T>` it is
/// `impl<'a, T: A> D<T> for S<'a, T> where T: C`. The error is `Fault` if the generic parameters or the where clause
/// are not those of an item. The trees of the trait are not checked.
///
/// # Contract
///
/// - `ensures ok`: <code>[IfOk] result (λ stream. (params : [List] [ParamTrees]) × (predicates : [List]
///   [PredicateTrees]) × [HasParams] item.now.generics.now params × [HasPredicates] item.now.where_clause.now
///   predicates × (stream ≡ [header] params item.now.name.now trait_path.now ([where_with] predicates
///   \[\])))</code>
/// - `ensures fault`: <code>[IfErr] result (λ error. [IfFault] error ([HasNotBoth] item.now.generics.now
///   item.now.where_clause.now))</code>
///
/// [IfOk]: crate::contracts#std.IfOk
/// [List]: crate::contracts#std.List
/// [ParamTrees]: crate::contracts#declarations.Param.ParamTrees
/// [PredicateTrees]: crate::contracts#declarations.Param.PredicateTrees
/// [HasParams]: crate::contracts#item_headers.Header.HasParams
/// [HasPredicates]: crate::contracts#item_headers.Header.HasPredicates
/// [header]: crate::contracts#item_headers.Header.header
/// [where_with]: crate::contracts#item_headers.Header.where_with
/// [IfErr]: crate::contracts#std.IfErr
/// [IfFault]: crate::contracts#item_headers.Fault.IfFault
/// [HasNotBoth]: crate::contracts#item_headers.Fault.HasNotBoth
pub fn impl_header(
    item: &TypeItem<'_>,
    trait_path: &TokenStream,
) -> Result<TokenStream, HeaderError>
{
    let mut quote = front(item, trait_path)?;
    push_where(&mut quote, item.where_clause)?;
    Ok(quote.into_stream())
}

/// Returns the header of an `impl` as [`impl_header`] does, but with another where clause instead of the item's.
///
/// Take the clause from a call such as `where_clause_with`. An empty stream is no where clause. For
/// `struct S<'a, T: A = B> where T: C { .. }`, `D<T>` and `where T: C, T: D<T>` the header is
/// `impl<'a, T: A> D<T> for S<'a, T> where T: C, T: D<T>`. The error is `Fault` if the generic parameters are not those
/// of an item. The trees of the trait and of the clause are not checked.
///
/// # Contract
///
/// - `ensures ok`: <code>[IfOk] result (λ stream. (params : [List] [ParamTrees]) × [HasParams]
///   item.now.generics.now params × (stream ≡ [header] params item.now.name.now trait_path.now
///   where_clause.now))</code>
/// - `ensures fault`: <code>[IfErr] result (λ error. [IfFault] error ([HasNoParams]
///   item.now.generics.now))</code>
///
/// [IfOk]: crate::contracts#std.IfOk
/// [List]: crate::contracts#std.List
/// [ParamTrees]: crate::contracts#declarations.Param.ParamTrees
/// [HasParams]: crate::contracts#item_headers.Header.HasParams
/// [header]: crate::contracts#item_headers.Header.header
/// [IfErr]: crate::contracts#std.IfErr
/// [IfFault]: crate::contracts#item_headers.Fault.IfFault
/// [HasNoParams]: crate::contracts#item_headers.Fault.HasNoParams
pub fn impl_header_where(
    item: &TypeItem<'_>,
    trait_path: &TokenStream,
    where_clause: &TokenStream,
) -> Result<TokenStream, HeaderError>
{
    let mut quote = front(item, trait_path)?;
    let clause = where_clause.try_clone()?;
    quote.push_stream(clause)?;
    Ok(quote.into_stream())
}

/// Returns a quote with the header up to the where clause.
fn front(item: &TypeItem<'_>, trait_path: &TokenStream) -> Result<Quote, HeaderError>
{
    let mut quote = Quote::new();
    push_word(&mut quote, "impl")?;
    push_generics(
        &mut quote,
        item.generics,
        Lead::Angle,
        Form::Declared,
    )?;
    let path = trait_path.try_clone()?;
    quote.push_stream(path)?;
    push_word(&mut quote, "for")?;
    let name = item.name.try_clone()?;
    quote.push(TokenTree::Ident(name))?;
    push_generics(&mut quote, item.generics, Lead::Angle, Form::Named)?;
    Ok(quote)
}
