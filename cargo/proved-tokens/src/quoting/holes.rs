// Made from crates/quoting/src/holes.rt by dev/erase: change that file, not this one.
//! The holes of a template and their values.

use crate::quoting::values::{Item, Value};
use crate::proc_macro2::{Ident, Literal, Span, TokenStream, TokenTree};

/// A name that templates can use, and its value: trees or a list.
#[derive(Clone, Copy)]
pub struct Hole<'a> {
    name: &'a str,
    filling: Filling<'a>,
}

/// The value of a hole, or of a list's element.
#[derive(Clone, Copy)]
pub(crate) enum Filling<'a> {
    // The trees of one stream.
    One(&'a TokenStream),
    // A list of streams, of which each turn of a repetition takes the next.
    Each(&'a [TokenStream]),
    // A value of any kind.
    Of(&'a Value<'a>),
    // The elements of lists of trees, identifiers, literals and strings.
    Tree(&'a TokenTree),
    Ident(&'a Ident),
    Literal(&'a Literal),
    Text(&'a str),
    Item(&'a Item),
}

impl<'a> Hole<'a> {
    /// Returns a hole whose value is one stream: `#name` is replaced by its trees.
    ///
    /// The name is the text of an identifier, or ASCII digits.
    ///
    /// # Contract
    ///
    /// - `ensures`: <code>[name_and_filling] result ≡ record { name = [chars] name.now; filling = [OneStream]
    ///   stream.now }</code>
    ///
    /// [name_and_filling]: crate::contracts#quoting.Given.name_and_filling
    /// [chars]: crate::contracts#std.chars
    /// [OneStream]: crate::contracts#quoting.Items.One
    pub fn one(name: &'a str, stream: &'a TokenStream) -> Hole<'a>
    {
        Hole {
            name,
            filling: Filling::One(stream),
        }
    }

    /// Returns a hole whose value is a list of streams: each turn of a repetition takes the next one.
    ///
    /// # Contract
    ///
    /// - `ensures`: <code>[name_and_filling] result ≡ record { name = [chars] name.now; filling = [EachStream]
    ///   ([each_of] [OneStream] streams.now) }</code>
    ///
    /// [name_and_filling]: crate::contracts#quoting.Given.name_and_filling
    /// [chars]: crate::contracts#std.chars
    /// [EachStream]: crate::contracts#quoting.Items.Each
    /// [each_of]: crate::contracts#quoting.Items.each_of
    /// [OneStream]: crate::contracts#quoting.Items.One
    pub fn each(name: &'a str, streams: &'a [TokenStream]) -> Hole<'a>
    {
        Hole {
            name,
            filling: Filling::Each(streams),
        }
    }

    /// Returns a hole with a value of any kind.
    ///
    /// With `Value::Number(Number::U8(7))` for `count`, `[0; #count]` is `[0; 7u8]`.
    ///
    /// # Contract
    ///
    /// - `ensures`: <code>[name_and_filling] result ≡ record { name = [chars] name.now; filling = [value_of]
    ///   value.now }</code>
    ///
    /// [name_and_filling]: crate::contracts#quoting.Given.name_and_filling
    /// [chars]: crate::contracts#std.chars
    /// [value_of]: crate::contracts#quoting.Values.value_of
    pub fn of(name: &'a str, value: &'a Value<'a>) -> Hole<'a>
    {
        Hole {
            name,
            filling: Filling::Of(value),
        }
    }
}

impl<'a> Filling<'a> {
    /// Returns the list's value for a turn, counted from 0. Returns the filling itself if it is no list or has no value
    /// for the turn.
    fn in_turn(self, turn: usize) -> Filling<'a>
    {
        match self.value_at(turn) {
            Some(value) => value,
            None => self,
        }
    }

    /// Returns the list's value for a turn, or `None` if it is no list or has no value for the turn.
    fn value_at(self, turn: usize) -> Option<Filling<'a>>
    {
        match self {
            Filling::Each(streams) => Some(Filling::One(streams.get(turn)?)),
            Filling::Of(value) => list_value(value, turn),
            Filling::Item(item) => item_value(item, turn),
            Filling::One(_)
            | Filling::Tree(_)
            | Filling::Ident(_)
            | Filling::Literal(_)
            | Filling::Text(_) => None,
        }
    }

    /// Returns the number of values, if the filling is a list.
    pub(crate) fn len(self) -> Option<usize>
    {
        match self {
            Filling::Each(streams) => Some(streams.len()),
            Filling::Of(value) => list_len(value),
            Filling::Item(item) => item_len(item),
            Filling::One(_)
            | Filling::Tree(_)
            | Filling::Ident(_)
            | Filling::Literal(_)
            | Filling::Text(_) => None,
        }
    }
}

/// Returns the list's value for a turn, or `None` if `value` is no list or has no value for the turn.
fn list_value<'a>(value: &'a Value<'a>, turn: usize) -> Option<Filling<'a>>
{
    match value {
        Value::Streams(streams) => Some(Filling::One(streams.get(turn)?)),
        Value::Trees(trees) => Some(Filling::Tree(trees.get(turn)?)),
        Value::Idents(idents) => Some(Filling::Ident(idents.get(turn)?)),
        Value::Literals(literals) => Some(Filling::Literal(literals.get(turn)?)),
        Value::Strings(texts) => Some(Filling::Text(texts.get(turn)?)),
        Value::List(values) => Some(Filling::Item(values.get(turn)?)),
        _ => None,
    }
}

/// Returns the number of values, if `value` is a list.
fn list_len(value: &Value<'_>) -> Option<usize>
{
    match value {
        Value::Streams(streams) => Some(streams.len()),
        Value::Trees(trees) => Some(trees.len()),
        Value::Idents(idents) => Some(idents.len()),
        Value::Literals(literals) => Some(literals.len()),
        Value::Strings(texts) => Some(texts.len()),
        Value::List(values) => Some(values.len()),
        _ => None,
    }
}

/// Returns the value of an item for a turn, or `None` if the item is no list or has no such value.
fn item_value<'a>(item: &'a Item, turn: usize) -> Option<Filling<'a>>
{
    match item {
        Item::List(values) => Some(Filling::Item(values.get(turn)?)),
        _ => None,
    }
}

/// Returns how many values an item has, if it is a list.
fn item_len(item: &Item) -> Option<usize>
{
    match item {
        Item::List(values) => Some(values.len()),
        _ => None,
    }
}

/// The tree that names a hole in a template.
#[derive(Clone, Copy)]
pub(crate) enum HoleName<'a> {
    IdentName(&'a Ident),
    Digits(&'a Literal),
}

impl<'a> HoleName<'a> {
    /// Returns the span of the name in the template.
    pub(crate) fn span(&self) -> Span
    {
        match self {
            HoleName::IdentName(ident) => ident.span(),
            HoleName::Digits(literal) => literal.span(),
        }
    }

    /// Returns whether the name has this text.
    fn is(&self, text: &str) -> bool
    {
        match self {
            HoleName::IdentName(ident) => ident.eq_str(text),
            HoleName::Digits(literal) => literal.text() == text,
        }
    }

    /// Returns the value of the first hole of this name.
    fn filling_of_name<'h>(&self, holes: &[Hole<'h>]) -> Option<Filling<'h>>
    {
        for hole in holes {
            if self.is(hole.name) {
                return Some(hole.filling);
            }
        }
        None
    }

    /// Returns the value of the first hole of this name in these turns of repetitions, the outermost first.
    pub(crate) fn filling<'h>(&self, holes: &[Hole<'h>], turns: &[usize]) -> Option<Filling<'h>>
    {
        let mut filling = self.filling_of_name(holes)?;
        for turn in turns {
            filling = filling.in_turn(*turn);
        }
        Some(filling)
    }
}
