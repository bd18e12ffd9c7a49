// Made from crates/quoting/src/putting.rt by dev/erase: change that file, not this one.
//! Adds the trees of a hole's value to the result.

use crate::shim::prelude::TryClone;

use crate::quoting::builder::StreamBuilder;
use crate::quoting::errors::TemplateError;
use crate::quoting::holes::{Filling, Hole, HoleName};
use crate::quoting::making::{number_literal, truth_ident};
use crate::quoting::values::{Item, Value};
use crate::pm_stream::parts;
use crate::proc_macro2::{Ident, IdentError, Literal, Span, TokenStream, TokenTree};
use crate::shim::alloc::AllocError;

/// Adds the trees of the named hole in these turns to the stream. About `more` trees are expected after them.
#[cfg_attr(not(debug_assertions), inline(always))]
pub(crate) fn put_name(
    out: &mut StreamBuilder,
    name: &HoleName<'_>,
    holes: &[Hole<'_>],
    turns: &[usize],
    more: usize,
) -> Result<(), TemplateError>
{
    match name.filling(holes, turns) {
        None => Err(TemplateError::NoHole(name.span())),
        Some(Filling::One(stream)) => Ok(out.append(stream, more)?),
        Some(filling) => put_filling(out, filling, name.span(), more),
    }
}

/// Adds the trees of the filling to the stream. An error gets the span of the hole's name.
fn put_filling(
    out: &mut StreamBuilder,
    filling: Filling<'_>,
    span: Span,
    more: usize,
) -> Result<(), TemplateError>
{
    match filling {
        Filling::One(stream) => Ok(out.append(stream, more)?),
        Filling::Each(_) => Err(TemplateError::LoneList(span)),
        Filling::Of(value) => put_value(out, value, span, more),
        Filling::Tree(tree) => Ok(put_tree(out, tree, more)?),
        Filling::Ident(ident) => Ok(out.put(TokenTree::Ident(ident.try_clone()?), more)?),
        Filling::Literal(literal) => Ok(put_literal(out, literal.try_clone()?, more)?),
        Filling::Text(text) => Ok(put_literal(out, Literal::string(text)?, more)?),
        Filling::Item(item) => put_item(out, item, span, more),
    }
}

/// Adds the trees of the value to the stream. An error gets the span of the hole's name.
fn put_value(
    out: &mut StreamBuilder,
    value: &Value<'_>,
    span: Span,
    more: usize,
) -> Result<(), TemplateError>
{
    match value {
        Value::Nothing => Ok(()),
        Value::Stream(stream) => Ok(out.append(stream, more)?),
        Value::OwnedStream(stream) => Ok(out.append(stream, more)?),
        Value::Tree(tree) => Ok(put_tree(out, tree, more)?),
        Value::OwnedTree(tree) => Ok(put_tree(out, tree, more)?),
        Value::Ident(ident) => Ok(out.put(TokenTree::Ident((*ident).try_clone()?), more)?),
        Value::Literal(literal) => Ok(put_literal(out, (*literal).try_clone()?, more)?),
        Value::Name(name) => { Ok(out.put(TokenTree::Ident(ident_of(name, span)?), more)?) }
        Value::Boolean(truth) => Ok(out.put(TokenTree::Ident(truth_ident(*truth)?), more)?),
        Value::NotFinite => Err(TemplateError::NotFinite(span)),
        Value::String(text) => Ok(put_literal(out, Literal::string(text)?, more)?),
        Value::Character(c) => Ok(put_literal(out, Literal::character(*c)?, more)?),
        Value::Number(number) => {
            Ok(put_literal(out, number_literal(*number)?, more)?)
        }
        Value::Streams(_)
        | Value::Trees(_)
        | Value::Idents(_)
        | Value::Literals(_)
        | Value::Strings(_)
        | Value::List(_) => Err(TemplateError::LoneList(span)),
    }
}

/// Adds the value of a list to the stream. An error gets the span of the hole's name.
fn put_item(
    out: &mut StreamBuilder,
    item: &Item,
    span: Span,
    more: usize,
) -> Result<(), TemplateError>
{
    match item {
        Item::Stream(stream) => Ok(out.append(stream, more)?),
        Item::Tree(tree) => Ok(put_tree(out, tree, more)?),
        Item::NotIdent => Err(TemplateError::NotIdent(span)),
        Item::NotFinite => Err(TemplateError::NotFinite(span)),
        Item::List(_) => Err(TemplateError::LoneList(span)),
    }
}

/// Returns the identifier with this name. An error gets the span of the hole's name.
fn ident_of(name: &str, span: Span) -> Result<Ident, TemplateError>
{
    match Ident::new(name, Span::call_site()) {
        Ok(ident) => Ok(ident),
        Err(IdentError::Memory(error)) => Err(TemplateError::Memory(error)),
        Err(IdentError::Empty | IdentError::Number | IdentError::Invalid | IdentError::Reserved) =>
            Err(TemplateError::NotIdent(span)),
    }
}

/// Puts the tree after the trees of the stream, a negative literal as its `-` and the rest.
fn put_tree(
    out: &mut StreamBuilder,
    tree: &TokenTree,
    more: usize,
) -> Result<(), AllocError>
{
    match tree {
        TokenTree::Literal(literal) => put_literal(out, literal.try_clone()?, more),
        TokenTree::Group(_) | TokenTree::Ident(_) | TokenTree::Punct(_) => out.put_copy(tree, more),
    }
}

/// Adds the literal to the stream. A negative one is added as the mark `-` and the rest.
fn put_literal(
    out: &mut StreamBuilder,
    literal: Literal,
    more: usize,
) -> Result<(), AllocError>
{
    if has_minus(literal.text()) {
        let mut both = TokenStream::new();
        parts::put_literal(&mut both, literal)?;
        return out.append(&both, more);
    }
    // It computes nothing: proofs learn what the text of every literal is.
    literal.span();
    out.put(TokenTree::Literal(literal), more)
}

/// Returns whether the text begins with `-`.
fn has_minus(text: &str) -> bool
{
    match text.chars().next() {
        Some(c) => c == '-',
        None => false,
    }
}
