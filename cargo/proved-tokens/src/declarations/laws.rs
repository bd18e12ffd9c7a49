// Made from crates/declarations/src/laws.rt by dev/erase: change that file, not this one.
//! The laws of declarations. The functions compute nothing: their contracts are the laws.

/// The tables of the walk are the grammar: each table reads exactly the pieces that its rule derives.
///
/// The grammar is the value `rules` of `specs/rules`. One sign decides at each of its choices, and each rule derives
/// something. So by `grammars::laws::one_reading` a piece has one reading, and signs that begin with no piece have
/// their error at exactly one position. A table walks over signs from state to state. What it reads are the pieces of
/// its rule: those that the rule derives and that the next sign cannot continue.
///
/// In `Vec < T > , x` the type is the piece `Vec < T >`, because no type begins with `Vec < T > ,`.
///
/// # Contract
///
/// - `ensures well_formed`: <code>[IsWellFormed] [rules] [follows]</code>
/// - `ensures tables`: <code>[TablesRead]</code>
///
/// [IsWellFormed]: crate::contracts#grammars.Deterministic.IsWellFormed
/// [rules]: crate::contracts#declarations.rules.Rules.rules
/// [follows]: crate::contracts#declarations.rules.Rules.follows
/// [TablesRead]: crate::contracts#declarations.Syntax.TablesRead
pub fn tables_are_the_grammar()
{}

/// An item has one kind and one name.
///
/// They are those that [`split_any_item`](crate::declarations::split_any_item) gives, by `HasKind` of its contract.
/// After the attributes, the visibility and the qualifiers of an item comes the keyword of its kind. From its name on
/// it reads by the rule of its kind. This holds for one kind and one name only. In `const unsafe fn f() {}` the `const`
/// is a qualifier, because a constant would go on with a name and `:`.
///
/// # Contract
///
/// - `ensures`: <code>[OneKind]</code>
///
/// [OneKind]: crate::contracts#declarations.Kind.OneKind
pub fn items_have_one_kind()
{}
