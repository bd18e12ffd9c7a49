// Made from crates/item_headers/src/clauses.rt by dev/erase: change that file, not this one.
//! Where clauses, with predicates added.

use crate::shim::prelude::TryClone;

use crate::item_headers::errors::HeaderError;
use crate::item_headers::lists::{Lead, push_lead, push_mark, push_trees};
use crate::declarations::{
    Param, ParamKind, Predicate, TypeItem, after_where, parse_param, parse_predicate,
    within_generics,
};
use crate::proc_macro2::{IdentError, TokenStream, TokenTree};
use crate::quoting::Quote;
use crate::shim::alloc::AllocError;

/// Returns the where clause of the item, or an empty stream if it has no predicates.
///
/// For `struct S<T> where T: A,` it is `where T: A`, and for `struct S<T> where` it is empty. The error is `Fault` if
/// the trees are not the where clause of an item.
///
/// # Contract
///
/// - `ensures ok`: <code>[IfOk] result (λ stream. (predicates : [List] [PredicateTrees]) × [HasPredicates]
///   item.now.where_clause.now predicates × (stream ≡ [where_with] predicates \[\]))</code>
/// - `ensures fault`: <code>[IfErr] result (λ error. [IfFault] error ([HasNoPredicates]
///   item.now.where_clause.now))</code>
///
/// [IfOk]: crate::contracts#std.IfOk
/// [List]: crate::contracts#std.List
/// [PredicateTrees]: crate::contracts#declarations.Param.PredicateTrees
/// [HasPredicates]: crate::contracts#item_headers.Header.HasPredicates
/// [where_with]: crate::contracts#item_headers.Header.where_with
/// [IfErr]: crate::contracts#std.IfErr
/// [IfFault]: crate::contracts#item_headers.Fault.IfFault
/// [HasNoPredicates]: crate::contracts#item_headers.Fault.HasNoPredicates
pub fn where_clause(item: &TypeItem<'_>) -> Result<TokenStream, HeaderError>
{
    let mut quote = Quote::new();
    push_where(&mut quote, item.where_clause)?;
    Ok(quote.into_stream())
}

/// Returns the where clause of the item with one more predicate, or several with `,` between them.
///
/// For `struct S<T> where T: A,` and `T: B` it is `where T: A, T: B`. For `struct S<T>` it is `where T: B`. The trees
/// of the predicate are not checked. If they are none, and the item has no predicate, the result is `where` alone. The
/// errors are those of [`where_clause`].
///
/// # Contract
///
/// - `ensures ok`: <code>[IfOk] result (λ stream. (predicates : [List] [PredicateTrees]) × [HasPredicates]
///   item.now.where_clause.now predicates × (stream ≡ [where_with] predicates (predicate.now ∷ \[\])))</code>
/// - `ensures fault`: <code>[IfErr] result (λ error. [IfFault] error ([HasNoPredicates]
///   item.now.where_clause.now))</code>
///
/// [IfOk]: crate::contracts#std.IfOk
/// [List]: crate::contracts#std.List
/// [PredicateTrees]: crate::contracts#declarations.Param.PredicateTrees
/// [HasPredicates]: crate::contracts#item_headers.Header.HasPredicates
/// [where_with]: crate::contracts#item_headers.Header.where_with
/// [IfErr]: crate::contracts#std.IfErr
/// [IfFault]: crate::contracts#item_headers.Fault.IfFault
/// [HasNoPredicates]: crate::contracts#item_headers.Fault.HasNoPredicates
pub fn where_clause_with(
    item: &TypeItem<'_>,
    predicate: &TokenStream,
) -> Result<TokenStream, HeaderError>
{
    let mut quote = Quote::new();
    let any = push_where(&mut quote, item.where_clause)?;
    push_lead(&mut quote, Lead::Where, any)?;
    let copy = predicate.try_clone()?;
    quote.push_stream(copy)?;
    Ok(quote.into_stream())
}

/// Returns the where clause of the item with one more bound on each type parameter.
///
/// For `struct S<'a, T, U, const N: usize> where T: A` and the bound `B` it is `where T: A, T: B, U: B`. The error is
/// `Fault` if the generic parameters or the where clause are not those of an item. The trees of the bound are not
/// checked.
///
/// # Contract
///
/// - `ensures ok`: <code>[IfOk] result (λ stream. (predicates : [List] [PredicateTrees]) × (params : [List]
///   [ParamTrees]) × [HasPredicates] item.now.where_clause.now predicates × [HasParams] item.now.generics.now
///   params × (stream ≡ [where_with] predicates ([bounds_on_types] bound.now params)))</code>
/// - `ensures fault`: <code>[IfErr] result (λ error. [IfFault] error ([HasNotBoth] item.now.generics.now
///   item.now.where_clause.now))</code>
///
/// [IfOk]: crate::contracts#std.IfOk
/// [List]: crate::contracts#std.List
/// [PredicateTrees]: crate::contracts#declarations.Param.PredicateTrees
/// [ParamTrees]: crate::contracts#declarations.Param.ParamTrees
/// [HasPredicates]: crate::contracts#item_headers.Header.HasPredicates
/// [HasParams]: crate::contracts#item_headers.Header.HasParams
/// [where_with]: crate::contracts#item_headers.Header.where_with
/// [bounds_on_types]: crate::contracts#item_headers.Header.bounds_on_types
/// [IfErr]: crate::contracts#std.IfErr
/// [IfFault]: crate::contracts#item_headers.Fault.IfFault
/// [HasNotBoth]: crate::contracts#item_headers.Fault.HasNotBoth
pub fn where_clause_with_bound(
    item: &TypeItem<'_>,
    bound: &TokenStream,
) -> Result<TokenStream, HeaderError>
{
    let mut quote = Quote::new();
    let any = push_where(&mut quote, item.where_clause)?;
    push_bounds(&mut quote, item.generics, bound, any)?;
    Ok(quote.into_stream())
}

/// Writes the predicates of a where clause at the end of the quote, and returns whether there are any.
pub(crate) fn push_where(
    quote: &mut Quote,
    where_clause: &[TokenTree],
) -> Result<bool, HeaderError>
{
    let mut left = after_where(where_clause)?;
    let mut any = false;
    while !left.is_empty() {
        let (predicate, rest) = parse_predicate(left)?;
        push_lead(quote, Lead::Where, any)?;
        push_predicate(quote, &predicate)?;
        any = true;
        left = rest;
    }
    Ok(any)
}

/// Writes a predicate at the end of the quote.
fn push_predicate(quote: &mut Quote, predicate: &Predicate<'_>) -> Result<(), AllocError>
{
    push_trees(quote, predicate.bounded)?;
    push_mark(quote, ':')?;
    push_trees(quote, predicate.bounds)?;
    Ok(())
}

/// Writes the bound on each type parameter at the end of the quote. `any` is whether the where clause has predicates
/// already.
fn push_bounds(
    quote: &mut Quote,
    generics: &[TokenTree],
    bound: &TokenStream,
    any: bool,
) -> Result<(), HeaderError>
{
    let mut left = within_generics(generics)?;
    let mut any_now = any;
    while !left.is_empty() {
        let (param, rest) = parse_param(left)?;
        let more = push_bound(quote, &param, bound, any_now)?;
        any_now = more;
        left = rest;
    }
    Ok(())
}

/// Writes the bound at the end of the quote if the parameter is a type. Returns whether the where clause has predicates
/// now.
fn push_bound(
    quote: &mut Quote,
    param: &Param<'_>,
    bound: &TokenStream,
    any: bool,
) -> Result<bool, IdentError>
{
    match param.kind {
        ParamKind::Lifetime => Ok(any),
        ParamKind::Type => {
            push_lead(quote, Lead::Where, any)?;
            push_trees(quote, param.name)?;
            push_mark(quote, ':')?;
            let copy = bound.try_clone()?;
            quote.push_stream(copy)?;
            Ok(true)
        }
        ParamKind::Const => Ok(any),
    }
}
