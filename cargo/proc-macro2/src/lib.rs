//! Token streams, as the crate `proc-macro2` offers them to macros, build scripts, generators and tests: read, built,
//! printed and compared by proved functions.
//!
//! Outside of macros all tokens are those of the package `proved-tokens`, whose functions were made from proved ones.
//! What is left to this package is to have a source map for each thread, to write floats, to show tokens without their
//! spans, and to panic where the public crate does. Inside a macro the tokens are the compiler's own.
//!
//! ```
//! use proc_macro2::{TokenStream, TokenTree};
//!
//! let stream: TokenStream = "a += (1)".parse()?;
//! assert_eq!(stream.to_string(), "a += (1)");
//! let last = stream.into_iter().last().expect("it has four trees");
//! assert!(matches!(last, TokenTree::Group(_)));
//! # Ok::<(), proc_macro2::LexError>(())
//! ```
#![deny(unsafe_code)]

extern crate proc_macro;

mod compiler;
pub mod extra;
mod group;
mod ident;
mod lex_error;
mod literal;
mod map;
mod print;
mod punct;
mod repr;
mod span;
mod stream;
mod tree;

#[cfg(procmacro2_semver_exempt)]
pub use literal::ConversionErrorKind;
#[cfg(procmacro2_semver_exempt)]
#[doc(inline)]
pub use proved_tokens::literal_escaper::EscapeError;
#[cfg(span_locations)]
#[doc(inline)]
pub use proved_tokens::pm_span::LineColumn;
#[doc(inline)]
pub use proved_tokens::pm_token::{Delimiter, Spacing};

use proved_tokens::{pm_span, pm_stream, pm_token};
use repr::Repr;

// The types are defined here, so that `std::any::type_name` gives the same names as of the public crate's.

/// Token trees in order, each a token or a group of trees between delimiters.
///
/// ```
/// use proc_macro2::TokenStream;
///
/// let stream: TokenStream = "fn f(x: u8) { /* nothing */ }".parse()?;
/// assert_eq!(stream.to_string(), "fn f (x : u8) { }");
/// assert_eq!(stream.into_iter().count(), 4);
/// # Ok::<(), proc_macro2::LexError>(())
/// ```
#[derive(Clone)]
pub struct TokenStream {
    repr: Repr<compiler::Stream, pm_stream::TokenStream>,
}

/// A token, or a group of trees between delimiters.
///
/// ```
/// use proc_macro2::{TokenStream, TokenTree};
///
/// fn count_names(stream: TokenStream) -> usize {
///     let of_tree = |tree| match tree {
///         TokenTree::Group(group) => count_names(group.stream()),
///         TokenTree::Ident(_) => 1,
///         TokenTree::Punct(_) | TokenTree::Literal(_) => 0,
///     };
///     stream.into_iter().map(of_tree).sum()
/// }
///
/// assert_eq!(count_names("a(b[1], c)".parse()?), 3);
/// # Ok::<(), proc_macro2::LexError>(())
/// ```
#[derive(Clone)]
pub enum TokenTree {
    /// Trees between delimiters.
    Group(Group),
    /// An identifier or a keyword.
    Ident(Ident),
    /// A punctuation mark.
    Punct(Punct),
    /// A literal.
    Literal(Literal),
}

/// Trees between delimiters.
///
/// ```
/// use proc_macro2::{Delimiter, Group};
///
/// let group = Group::new(Delimiter::Bracket, "1, 2".parse()?);
/// assert_eq!(group.to_string(), "[1 , 2]");
/// assert_eq!(group.delimiter(), Delimiter::Bracket);
/// assert_eq!(group.stream().to_string(), "1 , 2");
/// # Ok::<(), proc_macro2::LexError>(())
/// ```
#[derive(Clone)]
pub struct Group {
    repr: Repr<proc_macro::Group, pm_stream::Group>,
}

/// An identifier or a keyword, raw or plain.
///
/// A lifetime is none: it is the mark `'` and an identifier. `true` and `false` are identifiers.
///
/// ```
/// use proc_macro2::{Ident, Span};
///
/// let name = Ident::new("match", Span::call_site());
/// let raw = Ident::new_raw("match", Span::call_site());
/// assert_eq!(raw.to_string(), "r#match");
/// assert!(name == "match" && raw == "r#match" && name != raw);
/// ```
#[derive(Clone)]
pub struct Ident {
    repr: Repr<proc_macro::Ident, pm_token::Ident>,
}

/// A punctuation mark, which is one character.
///
/// ```
/// use proc_macro2::{Punct, Spacing, TokenStream, TokenTree};
///
/// let plus = Punct::new('+', Spacing::Joint);
/// let equals = Punct::new('=', Spacing::Alone);
/// let stream: TokenStream = [plus, equals].into_iter().map(TokenTree::Punct).collect();
/// assert_eq!(stream.to_string(), "+=");
/// ```
#[derive(Clone)]
pub struct Punct {
    repr: Repr<proc_macro::Punct, pm_token::Punct>,
}

/// A literal: a string, a character, a number, by its text.
///
/// ```
/// use proc_macro2::Literal;
///
/// assert_eq!(Literal::string("one\ttwo").to_string(), r#""one\ttwo""#);
/// assert_eq!(Literal::u8_suffixed(7).to_string(), "7u8");
/// assert_eq!(Literal::f64_unsuffixed(1.0).to_string(), "1.0");
/// assert_eq!(Literal::byte_string(b"\0a").to_string(), r#"b"\0a""#);
/// assert_eq!(Literal::c_string(c"a").to_string(), r#"c"a""#);
/// ```
pub struct Literal {
    repr: Repr<proc_macro::Literal, pm_token::Literal>,
}

/// Where a token stands, and inside a macro how its names are resolved.
///
/// ```
/// use proc_macro2::{Ident, Span, TokenStream};
///
/// let stream: TokenStream = "a\n  é.b".parse()?;
/// let last = stream.into_iter().last().expect("it has four trees");
/// let same_place = Ident::new("c", last.span());
/// assert_eq!(format!("{:?}", same_place.span()), format!("{:?}", last.span()));
/// # Ok::<(), proc_macro2::LexError>(())
/// ```
#[derive(Clone, Copy)]
pub struct Span {
    repr: span::Repr,
}

/// A text that couldn't be read.
///
/// ```
/// use proc_macro2::TokenStream;
///
/// let error = "f(x))".parse::<TokenStream>().unwrap_err();
/// assert_eq!(error.to_string(), "cannot parse string into token stream");
/// ```
pub struct LexError {
    repr: Repr<proc_macro::LexError, pm_span::Span>,
}

/// The stream of trees, with the iterator over its trees.
pub mod token_stream {
    pub use crate::stream::IntoIter;
    pub use crate::TokenStream;
}

/// Which tokens are made.
#[doc(hidden)]
pub mod fallback {
    pub use crate::compiler::{look_again as unforce, stay_outside as force};
}
