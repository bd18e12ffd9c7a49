// Made from crates/item_headers/src/laws.rt by dev/erase: change that file, not this one.
//! The laws of headers. The functions compute nothing: their contracts are the laws.

/// What [`impl_header`](crate::item_headers::impl_header) writes, followed by a body in braces, is read as one `impl`.
///
/// For `struct S<T: A = B> where T: C;` and the trait `D`, the header and the body are
/// `impl<T: A> D for S<T> where T: C { .. }`. From these trees [`parse_impl`](crate::declarations::parse_impl) returns
/// the generic parameters `<T: A>`, the trait `D`, the type `S<T>`, the where clause `where T: C` and the body. The
/// other parts are empty, and there is no other reading.
///
/// The trees of the item must come from a stream, as
/// [`TokenStream::trees`](crate::proc_macro2::TokenStream::trees) returns them. Then no literal has a `-` in it, which
/// would be written as a tree of its own. The trees of the trait must be read as a type before `for`, which `'a` and
/// `A +` are not. They must not begin with `!`. If the item has no parameters, they must not begin as generic
/// parameters do, as `<T>::A` does.
///
/// # Contract
///
/// - `ensures`: <code>[HeaderReads]</code>
///
/// [HeaderReads]: crate::contracts#item_headers.Laws.HeaderReads
pub fn header_reads()
{}

/// What [`impl_header_where`](crate::item_headers::impl_header_where) writes, followed by a body in braces, is read as
/// one `impl`, if the where clause is read before the body.
///
/// The other conditions are those of [`header_reads`]. By [`where_clauses_read`] the where clauses of two calls are
/// read before each body.
///
/// # Contract
///
/// - `ensures`: <code>[HeaderWithClauseReads]</code>
///
/// [HeaderWithClauseReads]: crate::contracts#item_headers.Laws.HeaderWithClauseReads
pub fn header_with_clause_reads()
{}

/// What [`where_clause`](crate::item_headers::where_clause) and
/// [`where_clause_with_bound`](crate::item_headers::where_clause_with_bound) write is read as a where clause
/// before a body.
///
/// The body is in braces. The trees of the item must come from a stream. The trees of the bound must be bounds, as
/// `A<T> + 'a` are.
///
/// # Contract
///
/// - `ensures item`: <code>[ClauseReads]</code>
/// - `ensures bounded`: <code>[BoundedClauseReads]</code>
///
/// [ClauseReads]: crate::contracts#item_headers.Laws.ClauseReads
/// [BoundedClauseReads]: crate::contracts#item_headers.Laws.BoundedClauseReads
pub fn where_clauses_read()
{}
