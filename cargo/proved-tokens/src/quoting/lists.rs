// Made from crates/quoting/src/lists.rt by dev/erase: change that file, not this one.
//! Lists of values, which a hole can have.

use crate::shim::prelude::{Grow, TryClone};

use crate::quoting::making::{number_literal, truth_ident};
use crate::quoting::values::{Item, Value, Values};
use crate::proc_macro2::{Ident, IdentError, Literal, Span, TokenStream, TokenTree};
use crate::shim::alloc::AllocError;

impl Values {
    /// Returns an empty list. It allocates nothing.
    ///
    /// # Contract
    ///
    /// - `ensures`: <code>result ≡ [end]</code>
    ///
    /// [end]: crate::contracts#quoting.Items.end
    pub fn new() -> Values
    {
        Values {
            list: Vec::new(),
        }
    }

    /// Adds a copy of the value's tokens at the end of the list.
    ///
    /// Fails if memory runs out. Then the list is unchanged, and the value is dropped.
    ///
    /// If `x` has two lists, one with `1u8` and one empty, `#( f(#( #x ),*) );*` gives `f(1u8); f()`.
    ///
    /// # Contract
    ///
    /// - `ensures ok`: <code>[OnOk] result (self.new ≡ [and_last] self.old ([value_of] value.entry))</code>
    /// - `ensures err`: <code>[OnErr] result (self.new ≡ self.old)</code>
    ///
    /// [OnOk]: crate::contracts#std.OnOk
    /// [and_last]: crate::contracts#quoting.Items.and_last
    /// [value_of]: crate::contracts#quoting.Values.value_of
    /// [OnErr]: crate::contracts#std.OnErr
    pub fn push(&mut self, value: Value<'_>) -> Result<(), AllocError>
    {
        let item = item_filling(value)?;
        self.put(item)
    }

    /// Adds the item at the end of the list. If that fails, the list is unchanged.
    fn put(&mut self, value: Item) -> Result<(), AllocError>
    {
        self.list.push_fallibly(value)?;
        Ok(())
    }

    /// Returns the number of values.
    pub(crate) fn len(&self) -> usize
    {
        self.list.len()
    }

    /// Returns the value at this index, counted from 0.
    pub(crate) fn get(&self, index: usize) -> Option<&Item>
    {
        self.list.get(index)
    }
}

/// Returns a copy of the value for a list, which owns its tokens.
fn item_filling(value: Value<'_>) -> Result<Item, AllocError>
{
    match value {
        Value::Nothing => Ok(Item::Stream(TokenStream::new())),
        Value::Stream(stream) => Ok(Item::Stream(stream.try_clone()?)),
        Value::OwnedStream(stream) => Ok(Item::Stream(stream)),
        Value::Tree(tree) => Ok(Item::Tree(tree.try_clone()?)),
        Value::OwnedTree(tree) => Ok(Item::Tree(tree)),
        Value::Ident(ident) => Ok(Item::Tree(TokenTree::Ident(ident.try_clone()?))),
        Value::Literal(literal) => Ok(Item::Tree(TokenTree::Literal(literal.try_clone()?))),
        Value::Name(name) => kept_name(name),
        Value::String(text) => Ok(Item::Tree(TokenTree::Literal(Literal::string(text)?))),
        Value::Character(c) => Ok(Item::Tree(TokenTree::Literal(Literal::character(c)?))),
        Value::Boolean(truth) => Ok(Item::Tree(TokenTree::Ident(truth_ident(truth)?))),
        Value::Number(number) => {
            Ok(Item::Tree(TokenTree::Literal(number_literal(number)?)))
        }
        Value::NotFinite => Ok(Item::NotFinite),
        Value::Streams(streams) => Ok(Item::List(kept_streams(streams)?)),
        Value::Trees(trees) => Ok(Item::List(kept_trees(trees)?)),
        Value::Idents(idents) => Ok(Item::List(kept_idents(idents)?)),
        Value::Literals(literals) => Ok(Item::List(kept_literals(literals)?)),
        Value::Strings(texts) => Ok(Item::List(kept_strings(texts)?)),
        Value::List(values) => Ok(Item::List(values)),
    }
}

/// Returns the identifier with this name, or `Item::NotIdent` if no identifier has it.
fn kept_name(name: &str) -> Result<Item, AllocError>
{
    match Ident::new(name, Span::call_site()) {
        Ok(ident) => Ok(Item::Tree(TokenTree::Ident(ident))),
        Err(IdentError::Memory(error)) => Err(error),
        Err(IdentError::Empty | IdentError::Number | IdentError::Invalid | IdentError::Reserved) =>
            Ok(Item::NotIdent),
    }
}

/// Returns a list of copies of the streams.
fn kept_streams(streams: &[TokenStream]) -> Result<Values, AllocError>
{
    let mut values = Values::new();
    for stream in streams {
        values.put(Item::Stream(stream.try_clone()?))?;
    }
    Ok(values)
}

/// Returns a list of copies of the trees.
fn kept_trees(trees: &[TokenTree]) -> Result<Values, AllocError>
{
    let mut values = Values::new();
    for tree in trees {
        values.put(Item::Tree(tree.try_clone()?))?;
    }
    Ok(values)
}

/// Returns a list of copies of the identifiers.
fn kept_idents(idents: &[Ident]) -> Result<Values, AllocError>
{
    let mut values = Values::new();
    for ident in idents {
        values.put(Item::Tree(TokenTree::Ident(ident.try_clone()?)))?;
    }
    Ok(values)
}

/// Returns a list of copies of the literals.
fn kept_literals(literals: &[Literal]) -> Result<Values, AllocError>
{
    let mut values = Values::new();
    for literal in literals {
        values.put(Item::Tree(TokenTree::Literal(literal.try_clone()?)))?;
    }
    Ok(values)
}

/// Returns a list of the string literals with these texts.
fn kept_strings(texts: &[&str]) -> Result<Values, AllocError>
{
    let mut values = Values::new();
    for text in texts {
        values.put(Item::Tree(TokenTree::Literal(Literal::string(text)?)))?;
    }
    Ok(values)
}
