// Made from crates/declarations/src/generics.rt by dev/erase: change that file, not this one.
//! Generic parameters and the predicates of where clauses, one at a time.

use crate::declarations::explore::{fault_at_comma, fault_at_sign, fault_by};
use crate::declarations::fault::Fault;
use crate::declarations::param_parts::{param_of, past_end, predicate_of};
use crate::declarations::part_syntax::{GENERIC, PREDICATE};
use crate::declarations::syntax::Test;
use crate::item_tables::class::{Keyword, SignClass};
use crate::pm_stream::TokenTree;

/// The kind of a generic parameter.
#[derive(Clone, Copy, Debug, PartialEq, Eq)]
pub enum ParamKind {
    /// A lifetime, such as `'a`.
    Lifetime,
    /// A type, such as `T`.
    Type,
    /// A constant, such as `const N: usize`.
    Const,
}

/// A generic parameter, split into its parts in reading order.
#[derive(Clone, Copy, Debug)]
pub struct Param<'a> {
    /// The outer attributes, perhaps none.
    pub attributes: &'a [TokenTree],
    /// Whether the parameter is a lifetime, a type or a constant.
    pub kind: ParamKind,
    /// The name: one tree, or the two trees of a lifetime.
    pub name: &'a [TokenTree],
    /// The bounds after `:`, perhaps none. For a constant, its type.
    pub bounds: &'a [TokenTree],
    /// The default after `=`, or no trees.
    pub default: &'a [TokenTree],
}

/// A predicate of a where clause, split into its parts in reading order.
#[derive(Clone, Copy, Debug)]
pub struct Predicate<'a> {
    /// The type or the lifetime that is bounded, with its `for<..>`.
    pub bounded: &'a [TokenTree],
    /// The bounds after `:`, perhaps none.
    pub bounds: &'a [TokenTree],
}

/// Returns the trees between the angle brackets of an item's generic parameters.
///
/// For `<'a, T>` it returns `'a, T`, and for no trees it returns none. All other trees give a `Fault`: at the first
/// tree if it is not `<`, and otherwise at the end. Its expected sign is the `<` or the `>` that is missing.
///
/// # Contract
///
/// - `ensures ok`: <code>[IfOk] result (λ inside. [IsWithin] generics.now inside.now)</code>
/// - `ensures fault`: <code>[IfErr] result (λ fault. (inside : [List] Tree) → [IsWithin] generics.now inside →
///   ⊥)</code>
/// - `ensures place`: <code>[IfErr] result (λ fault. [LacksBracket] generics.now fault)</code>
/// - `ensures span`: <code>[IfErr] result (λ fault. fault.span ≡ [extent_at] generics.now fault.at)</code>
///
/// [IfOk]: crate::contracts#std.IfOk
/// [IsWithin]: crate::contracts#declarations.Param.IsWithin
/// [IfErr]: crate::contracts#std.IfErr
/// [List]: crate::contracts#std.List
/// [LacksBracket]: crate::contracts#declarations.Param.LacksBracket
/// [extent_at]: crate::contracts#declarations.Fault.extent_at
pub fn within_generics(generics: &[TokenTree]) -> Result<&[TokenTree], Fault>
{
    let Some((open, rest)) = generics.split_first() else {
        return Ok(generics);
    };
    if !is_mark_of('<', open) {
        return Err(fault_at_sign(Test::Opens, 0, generics));
    }
    match rest.split_last() {
        Some((close, inside)) if is_mark_of('>', close) => Ok(inside),
        _ => {
            let (_, end) = generics.split_at(generics.len());
            Err(fault_at_sign(Test::Is(SignClass::Greater), generics.len(), end))
        }
    }
}

/// Returns the trees after the `where` of an item's where clause.
///
/// For `where T: A,` it returns `T: A,`, and for no trees it returns none. All other trees give a `Fault` at the first
/// one, which expects `where`.
///
/// # Contract
///
/// - `ensures ok`: <code>[IfOk] result (λ inside. [IsAfterWhere] where_clause.now inside.now)</code>
/// - `ensures fault`: <code>[IfErr] result (λ fault. (inside : [List] Tree) → [IsAfterWhere] where_clause.now
///   inside → ⊥)</code>
/// - `ensures place`: <code>[IfErr] result (λ fault. [LacksWhere] fault)</code>
/// - `ensures span`: <code>[IfErr] result (λ fault. fault.span ≡ [extent_at] where_clause.now fault.at)</code>
///
/// [IfOk]: crate::contracts#std.IfOk
/// [IsAfterWhere]: crate::contracts#declarations.Param.IsAfterWhere
/// [IfErr]: crate::contracts#std.IfErr
/// [List]: crate::contracts#std.List
/// [LacksWhere]: crate::contracts#declarations.Param.LacksWhere
/// [extent_at]: crate::contracts#declarations.Fault.extent_at
pub fn after_where(where_clause: &[TokenTree]) -> Result<&[TokenTree], Fault>
{
    match where_clause.split_first() {
        None => Ok(where_clause),
        Some((TokenTree::Ident(word), rest)) if word.eq_str("where") => Ok(rest),
        Some(_) => Err(fault_at_sign(
            Test::Is(SignClass::Keyword(Keyword::Where)),
            0,
            where_clause,
        )),
    }
}

/// Returns the parts of the generic parameter at the start of the trees, and the trees after its `,`.
///
/// Pass the trees that [`within_generics`] returned, or the rest that an earlier call returned. The last parameter
/// needs no `,`. For `#[a] T: A<B, C> + 'b = D, const N: usize` the name is `T`, the bounds are `A<B, C> + 'b`, the
/// default is `D`, and the rest is `const N: usize`.
///
/// If the trees begin with no parameter, or neither `,` nor the end comes after it, the call returns a `Fault`: where
/// one of the parts has its error, or at the first sign that belongs to no part. The rule `parameter`, of which the
/// lists of [`split_generics`](crate::declarations::split_generics) are made, is in crates/declarations/README.md.
///
/// # Contract
///
/// - `ensures ok`: <code>[IfOk] result (λ found. [IsParamAt] trees.now ([param_trees] found.0)
///   found.1.now)</code>
/// - `ensures only`: <code>[IfOk] result (λ found. [IsOnlyParam] trees.now ([param_trees] found.0)
///   found.1.now)</code>
/// - `ensures reads`: <code>[IfOk] result (λ found. [ReadsElement] [parameter] trees.now found.1.now)</code>
/// - `ensures fewer`: <code>[IfOk] result (λ found. [length] found.1.now &lt; [length] trees.now)</code>
/// - `ensures fault`: <code>[IfErr] result (λ fault. (param : [ParamTrees]) → (rest : [List] Tree) →
///   [IsParamAt] trees.now param rest → ⊥)</code>
/// - `ensures place`: <code>[IfErr] result (λ fault. [IsListFault] ([ByRule] [parameter]) trees.now
///   fault)</code>
/// - `ensures within`: <code>[IfErr] result (λ fault. fault.at ≤ [length] trees.now)</code>
/// - `ensures span`: <code>[IfErr] result (λ fault. fault.span ≡ [extent_at] trees.now fault.at)</code>
///
/// [IfOk]: crate::contracts#std.IfOk
/// [IsParamAt]: crate::contracts#declarations.Param.IsParamAt
/// [param_trees]: crate::contracts#declarations.Param.param_trees
/// [IsOnlyParam]: crate::contracts#declarations.Param.IsOnlyParam
/// [ReadsElement]: crate::contracts#declarations.Param.ReadsElement
/// [parameter]: crate::contracts#declarations.rules.Parts.parameter
/// [length]: crate::contracts#std.length
/// [IfErr]: crate::contracts#std.IfErr
/// [ParamTrees]: crate::contracts#declarations.Param.ParamTrees
/// [List]: crate::contracts#std.List
/// [IsListFault]: crate::contracts#declarations.List.IsListFault
/// [ByRule]: crate::contracts#declarations.rules.Pieces.ByRule
/// [extent_at]: crate::contracts#declarations.Fault.extent_at
pub fn parse_param(trees: &[TokenTree]) -> Result<(Param<'_>, &[TokenTree]), Fault>
{
    match param_of(trees) {
        Ok((param, from_end)) => match past_end(from_end) {
            Some(rest) => Ok((param, rest)),
            None => Err(fault_at_comma(&GENERIC, trees, from_end)),
        },
        Err(left) => Err(fault_by(&GENERIC, trees, left)),
    }
}

/// Returns the parts of the predicate at the start of the trees, and the trees after its `,`.
///
/// Pass the trees that [`after_where`] returned, or the rest that an earlier call returned. If the trees begin with no
/// predicate, or neither `,` nor the end comes after it, the call returns a `Fault`, as [`parse_param`] does. For
/// `for<'b> T: A<'b, C>, 'a: 'b` the bounded type is `for<'b> T`, the bounds are `A<'b, C>`, and the rest is `'a: 'b`.
///
/// # Contract
///
/// - `ensures ok`: <code>[IfOk] result (λ found. [IsPredicateAt] trees.now ([predicate_trees] found.0)
///   found.1.now)</code>
/// - `ensures only`: <code>[IfOk] result (λ found. [IsOnlyPredicate] trees.now ([predicate_trees] found.0)
///   found.1.now)</code>
/// - `ensures reads`: <code>[IfOk] result (λ found. [ReadsElement] [predicate] trees.now found.1.now)</code>
/// - `ensures fewer`: <code>[IfOk] result (λ found. [length] found.1.now &lt; [length] trees.now)</code>
/// - `ensures fault`: <code>[IfErr] result (λ fault. (predicate : [PredicateTrees]) → (rest : [List] Tree) →
///   [IsPredicateAt] trees.now predicate rest → ⊥)</code>
/// - `ensures place`: <code>[IfErr] result (λ fault. [IsListFault] ([ByRule] [predicate]) trees.now
///   fault)</code>
/// - `ensures within`: <code>[IfErr] result (λ fault. fault.at ≤ [length] trees.now)</code>
/// - `ensures span`: <code>[IfErr] result (λ fault. fault.span ≡ [extent_at] trees.now fault.at)</code>
///
/// [IfOk]: crate::contracts#std.IfOk
/// [IsPredicateAt]: crate::contracts#declarations.Param.IsPredicateAt
/// [predicate_trees]: crate::contracts#declarations.Param.predicate_trees
/// [IsOnlyPredicate]: crate::contracts#declarations.Param.IsOnlyPredicate
/// [ReadsElement]: crate::contracts#declarations.Param.ReadsElement
/// [predicate]: crate::contracts#declarations.rules.Parts.predicate
/// [length]: crate::contracts#std.length
/// [IfErr]: crate::contracts#std.IfErr
/// [PredicateTrees]: crate::contracts#declarations.Param.PredicateTrees
/// [List]: crate::contracts#std.List
/// [IsListFault]: crate::contracts#declarations.List.IsListFault
/// [ByRule]: crate::contracts#declarations.rules.Pieces.ByRule
/// [extent_at]: crate::contracts#declarations.Fault.extent_at
pub fn parse_predicate(trees: &[TokenTree]) -> Result<(Predicate<'_>, &[TokenTree]), Fault>
{
    match predicate_of(trees) {
        Ok((predicate, from_end)) => match past_end(from_end) {
            Some(rest) => Ok((predicate, rest)),
            None => Err(fault_at_comma(&PREDICATE, trees, from_end)),
        },
        Err(left) => Err(fault_by(&PREDICATE, trees, left)),
    }
}

/// Whether the tree is this punctuation mark.
fn is_mark_of(mark: char, tree: &TokenTree) -> bool
{
    match tree {
        TokenTree::Punct(punct) => punct.as_char() == mark,
        TokenTree::Group(_) | TokenTree::Ident(_) | TokenTree::Literal(_) => false,
    }
}
