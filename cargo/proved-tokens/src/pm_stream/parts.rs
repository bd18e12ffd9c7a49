// Made from crates/pm_stream/src/parts.rt by dev/erase: change that file, not this one.
//! Calls for the crates that are built on this one, not for users.

use crate::pm_stream::stream::{Group, TokenStream, TokenTree};
use crate::pm_span::Span;
use crate::pm_token::{Delimiter, Ident, Literal, Punct};
use crate::shim::alloc::AllocError;

/// Returns the group with this delimiter, stream and span.
///
/// # Contract
///
/// - `ensures`: <code>result ≡ record { delimiter = delimiter; stream = stream; span = span }</code>
pub fn group(delimiter: Delimiter, stream: TokenStream, span: Span) -> Group
{
    Group::from_parts(delimiter, stream, span)
}

/// Returns the stream of these trees. Fails if memory runs out.
///
/// # Contract
///
/// - `requires`: <code>[IsBuilt] ([forest] trees.items)</code>
/// - `ensures ok`: <code>[IfOk] result (λ stream. stream ≡ [forest] trees.items)</code>
///
/// [IsBuilt]: crate::contracts#pm_stream.Forest.IsBuilt
/// [forest]: crate::contracts#pm_stream.Trees.forest
/// [IfOk]: crate::contracts#std.IfOk
pub fn stream(trees: Vec<TokenTree>) -> Result<TokenStream, AllocError>
{
    TokenStream::from_vec(trees)
}

/// Returns the trees of the stream, in order. A list that no other stream shares is moved. A shared list is copied,
/// which fails if memory runs out.
///
/// # Contract
///
/// - `ensures value`: <code>[IfOk] result (λ list. [forest] list.items ≡ stream)</code>
/// - `ensures built`: <code>[IsBuilt] stream</code>
///
/// [IfOk]: crate::contracts#std.IfOk
/// [forest]: crate::contracts#pm_stream.Trees.forest
/// [IsBuilt]: crate::contracts#pm_stream.Forest.IsBuilt
pub fn into_trees(stream: TokenStream) -> Result<Vec<TokenTree>, AllocError>
{
    stream.into_list()
}

/// Takes the trees out of the group and returns them. The group is empty afterwards.
///
/// # Contract
///
/// - `ensures value`: <code>result ≡ group.old.stream</code>
/// - `ensures left`: <code>group.new ≡ record group.old { stream = [nil] }</code>
///
/// [nil]: crate::contracts#pm_stream.Forest.nil
#[cfg_attr(not(debug_assertions), inline(always))]
pub fn take_stream(group: &mut Group) -> TokenStream
{
    group.take_stream()
}

/// Replaces the group's trees with these trees.
///
/// # Contract
///
/// - `ensures`: <code>group.new ≡ record group.old { stream = stream }</code>
#[cfg_attr(not(debug_assertions), inline(always))]
pub fn set_stream(group: &mut Group, stream: TokenStream)
{
    group.set_stream(stream);
}

/// Appends a group to a stream. If memory runs out, the stream does not change.
///
/// # Contract
///
/// - `ensures ok`: <code>[OnOk] result (stream.new ≡ [chain] stream.old ([split] (GroupTree group)))</code>
/// - `ensures err`: <code>[OnErr] result (stream.new ≡ stream.old)</code>
///
/// [OnOk]: crate::contracts#std.OnOk
/// [chain]: crate::contracts#pm_stream.Forest.chain
/// [split]: crate::contracts#pm_stream.Building.split
/// [OnErr]: crate::contracts#std.OnErr
#[cfg_attr(not(debug_assertions), inline(always))]
pub fn put_group(stream: &mut TokenStream, group: Group) -> Result<(), AllocError>
{
    stream.put_group(group)
}

/// Appends an identifier to a stream. If memory runs out, the stream does not change.
///
/// # Contract
///
/// - `ensures ok`: <code>[OnOk] result (stream.new ≡ [chain] stream.old ([split] (IdentTree ident)))</code>
/// - `ensures err`: <code>[OnErr] result (stream.new ≡ stream.old)</code>
///
/// [OnOk]: crate::contracts#std.OnOk
/// [chain]: crate::contracts#pm_stream.Forest.chain
/// [split]: crate::contracts#pm_stream.Building.split
/// [OnErr]: crate::contracts#std.OnErr
#[cfg_attr(not(debug_assertions), inline(always))]
pub fn put_ident(stream: &mut TokenStream, ident: Ident) -> Result<(), AllocError>
{
    stream.put_ident(ident)
}

/// Appends a mark to a stream. If memory runs out, the stream does not change.
///
/// # Contract
///
/// - `ensures ok`: <code>[OnOk] result (stream.new ≡ [chain] stream.old ([split] (PunctTree punct)))</code>
/// - `ensures err`: <code>[OnErr] result (stream.new ≡ stream.old)</code>
///
/// [OnOk]: crate::contracts#std.OnOk
/// [chain]: crate::contracts#pm_stream.Forest.chain
/// [split]: crate::contracts#pm_stream.Building.split
/// [OnErr]: crate::contracts#std.OnErr
#[cfg_attr(not(debug_assertions), inline(always))]
pub fn put_punct(stream: &mut TokenStream, punct: Punct) -> Result<(), AllocError>
{
    stream.put_punct(punct)
}

/// Appends a literal to a stream; a negative one gives its `-` and the rest. If memory runs out, the stream does not
/// change.
///
/// # Contract
///
/// - `ensures ok`: <code>[OnOk] result (stream.new ≡ [chain] stream.old ([split] (LiteralTree literal)))</code>
/// - `ensures err`: <code>[OnErr] result (stream.new ≡ stream.old)</code>
///
/// [OnOk]: crate::contracts#std.OnOk
/// [chain]: crate::contracts#pm_stream.Forest.chain
/// [split]: crate::contracts#pm_stream.Building.split
/// [OnErr]: crate::contracts#std.OnErr
#[cfg_attr(not(debug_assertions), inline(always))]
pub fn put_literal(stream: &mut TokenStream, literal: Literal) -> Result<(), AllocError>
{
    stream.put_literal(literal)
}
