// Made from crates/quoting/src/values.rt by dev/erase: change that file, not this one.
//! The values of holes.

use crate::proc_macro2::{Ident, Literal, TokenStream, TokenTree};

/// The value of a hole: trees, or a list of which each turn of a repetition takes the next value.
///
/// Trees keep their spans. A token that is made from a text, a number, a character or a `bool` has the span of
/// [`Span::call_site`](crate::proc_macro2::Span::call_site). A negative literal gives two trees: the mark `-`, which is
/// Alone, and the rest.
///
/// `Value::Number(Number::I8(-7))` gives `-` and `7i8`, and `Value::String("a")` gives `"a"`.
pub enum Value<'a> {
    /// No trees. Use it for an `Option` that is `None`.
    Nothing,
    /// The trees of a borrowed stream.
    Stream(&'a TokenStream),
    /// The trees of a stream that the value owns.
    OwnedStream(TokenStream),
    /// A borrowed tree.
    Tree(&'a TokenTree),
    /// A tree that the value owns.
    OwnedTree(TokenTree),
    /// A borrowed identifier.
    Ident(&'a Ident),
    /// A borrowed literal.
    Literal(&'a Literal),
    /// The identifier with this name. If the text is not an identifier, or is a raw one, the error is `NotIdent`.
    Name(&'a str),
    /// The string literal with this text as its value.
    String(&'a str),
    /// The character literal with this value.
    Character(char),
    /// The identifier `true` or `false`.
    Boolean(bool),
    /// The literal of this number, with its suffix.
    Number(Number),
    /// A float that is infinite or not a number. No literal has that value, so the error is `NotFinite`.
    NotFinite,
    /// A list of streams.
    Streams(&'a [TokenStream]),
    /// A list of trees.
    Trees(&'a [TokenTree]),
    /// A list of identifiers.
    Idents(&'a [Ident]),
    /// A list of literals.
    Literals(&'a [Literal]),
    /// A list of string literals.
    Strings(&'a [&'a str]),
    /// A list of values, which can be lists for repetitions inside a repetition.
    List(Values),
}

/// A number, whose literal has the name of its type as the suffix.
#[derive(Clone, Copy)]
pub enum Number {
    /// A `u8`: 7 gives `7u8`.
    U8(u8),
    /// A `u16`: 7 gives `7u16`.
    U16(u16),
    /// A `u32`: 7 gives `7u32`.
    U32(u32),
    /// A `u64`: 7 gives `7u64`.
    U64(u64),
    /// A `u128`: 7 gives `7u128`.
    U128(u128),
    /// A `usize`: 7 gives `7usize`.
    Usize(usize),
    /// An `i8`: -7 gives `-` and `7i8`.
    I8(i8),
    /// An `i16`: -7 gives `-` and `7i16`.
    I16(i16),
    /// An `i32`: -7 gives `-` and `7i32`.
    I32(i32),
    /// An `i64`: -7 gives `-` and `7i64`.
    I64(i64),
    /// An `i128`: -7 gives `-` and `7i128`.
    I128(i128),
    /// An `isize`: -7 gives `-` and `7isize`.
    Isize(isize),
}

/// A list of values, which owns their tokens. Contracts see it as the trees or lists of its values, in order.
pub struct Values {
    pub(crate) list: Vec<Item>,
}

/// A value that a list has.
pub(crate) enum Item {
    /// The trees of a stream.
    Stream(TokenStream),
    /// A tree, which comes as two if it is a negative literal.
    Tree(TokenTree),
    /// A text that is no name of an identifier.
    NotIdent,
    /// A float that is infinite or no number.
    NotFinite,
    /// A list, for the repetitions inside.
    List(Values),
}
