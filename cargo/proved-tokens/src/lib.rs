//! Rust source text as token trees: read it, walk it, build it and print it, by proved functions.
//!
//! ```
//! use proved_tokens::{SourceMap, TokenStream};
//!
//! let stream: TokenStream = "fn f(x: u8) -> u8 { x+1 }".parse()?;
//! assert_eq!(stream.to_string(), "fn f (x : u8) -> u8 { x + 1 }");
//! let mut map = SourceMap::new(); // keeps the texts, for lines and columns
//! let placed = TokenStream::from_str("a\n  + b", &mut map)?;
//! assert_eq!(placed.trees()[1].span().start(&map).line, 2);
//! # Ok::<(), Box<dyn std::error::Error>>(())
//! ```
//!
//! You want to | Feature | Look at
//! ---|---|---
//! read a text, and know where each token is | – | [`TokenStream`], [`SourceMap`], [`Span`]
//! go through all tokens of a stream, at all depths | – | [`TokenStream::walk`], [`walk`]
//! build a stream, by `collect`, `extend` or `from` | – | [`TokenStream`], [`Ident`], [`Literal`], [`Group`], [`Punct`]
//! read comments and white space, or what a literal stands for | – | [`text`]
//! tell errors apart | – | [`error`]
//! write code by `quote!`, or by templates that are read at run time | `quote` | [`quote`](quote/index.html)
//! read files, functions, structs and enums, or write a derive | `items` | [`items`](items/index.html)
//! print code for people, or change white space alone | `print` | [`print`](print/index.html)
//! say why a text does not parse | `check` | [`check`](check/index.html)
//! look through the tokens of a text fast, without trees | `cursor` | [`cursor`](cursor/index.html)
//!
//! # A program
//!
//! With the feature `items` this program lists the functions of a file, each with its line and column. Functions inside
//! of other items are left out ([`AnyItem::body`](items/struct.AnyItem.html) has these items). Then it builds a stream
//! of the names and prints it. An error is shown with its place.
//!
//! ```
//! # #[cfg(feature = "items")] {
//! use proved_tokens::items::{parse_file, ItemKind};
//! use proved_tokens::{SourceMap, Span, TokenStream, TokenTree};
//! use std::fmt::Display;
//!
//! /// The error with its line and column. It has no span if the text ends too early.
//! fn placed(error: &dyn Display, span: Option<Span>, map: &SourceMap) -> String {
//!     match span.map(|span| span.start(map)) {
//!         Some(start) => format!("{}:{}: {error}", start.line, start.column + 1),
//!         None => format!("at the end: {error}"),
//!     }
//! }
//!
//! let path = "src/main.rs";
//! # let path = "src/pretty_printer.rs";
//! let text = std::fs::read_to_string(path)?;
//! let mut map = SourceMap::new();
//! let stream = TokenStream::from_str(&text, &mut map).map_err(|error| placed(&error, error.span(), &map))?;
//! let file = parse_file(stream.trees()).map_err(|fault| placed(&fault, fault.span(), &map))?;
//! let mut names = Vec::new();
//! for item in file.items {
//!     let item = item?; // never an error for what `parse_file` gives
//!     if let (ItemKind::Function, Some(name)) = (item.kind, item.name) {
//!         let start = name.span().start(&map); // lines count from 1, columns from 0, in characters
//!         println!("{}:{} {name}", start.line, start.column);
//!         names.push(TokenTree::from(name.clone()));
//!     }
//! }
//! let names: TokenStream = names.into_iter().collect();
//! println!("{names}");
//! # assert!(names.to_string().contains("to_pretty_string"));
//! # }
//! # Ok::<(), Box<dyn std::error::Error>>(())
//! ```
//!
//! Trees that you make need no text:
//!
//! ```
//! use proved_tokens::{Delimiter, Group, Ident, Literal, Punct, Spacing, Span, TokenStream, TokenTree};
//!
//! let name = |text| Ident::new(text, Span::call_site()).map(TokenTree::from);
//! let (one, two) = (Literal::u8_unsuffixed(1)?, Literal::u8_unsuffixed(2)?);
//! let sum: [TokenTree; 3] = [one.into(), Punct::new('+', Spacing::Alone).into(), two.into()];
//! let parameters = Group::new(Delimiter::Parenthesis, TokenStream::new());
//! let body = Group::new(Delimiter::Brace, sum.into_iter().collect());
//! let trees = [name("fn")?, name("f")?, parameters.into(), body.into()];
//! let function: TokenStream = trees.into_iter().collect();
//! assert_eq!(function.to_string(), "fn f () { 1 + 2 }");
//! # Ok::<(), Box<dyn std::error::Error>>(())
//! ```
//!
//! # Features
//!
//! None of the features above is on by default. Turn on those that you need:
//!
//! ```toml
//! [dependencies]
//! proved-tokens = { path = "../tokens/cargo/proved-tokens", features = ["items", "quote"] } # where its repository is
//! ```
//!
//! The one default feature, `whole`, is what this page describes; the package `proc-macro2` goes without it, to compile
//! faster.
//! To convert streams from and to those of `proc-macro2`, as in a macro, take the package `proved-macros`, which has
//! this one inside it.
//!
//! # What is proved
//!
//! These functions are written in Rattle, which is Rust with contracts. Each body was proved to meet its function's
//! contract, and a script made this package from the proved bodies. A function's contract is on its page, under the
//! heading Contract; the page [`contracts`] says how to read it. For example, [`TokenStream::from_str`] returns a
//! stream only for a text without a fault, and every stream that is read from a text is read again, up to spans, from
//! what it prints. A call that meets what its contract requires does not panic. Written by hand, and only tested, are
//! the impls of std's traits, each a line over a proved call, the calls of Rust's `std` below the bodies,
//! [`CompileError`](error/index.html), and the macros and templates of `quote`, which fill by the proved `Quote::fill`.
//!
//! # Memory
//!
//! Where memory runs out, Rust's allocator ends the process. So [`AllocError`](error::AllocError) has no value, the
//! errors named `Memory` cannot be made, and `let Ok(x) = ..` is enough for a call that fails by it alone. Streams are
//! counted without locks, so they are neither `Send` nor `Sync`.
//!
//! # What a contract requires
//!
//! Some functions require something of their arguments, as [`Span::start`] does of its map: see `requires` under
//! Contract. The caller has to see to it, else the call may panic, or answer anything. The package's one `unsafe` reads
//! the bytes of a short text, which are copied from whole texts alone, so they are UTF-8 whatever a caller does.
#![deny(unsafe_code)]
#![warn(missing_docs)]

mod alloc_error;
#[cfg(feature = "declarations")]
mod compile_error;
#[doc(hidden)]
pub mod shim;
mod tables;

/// A crate of `crates/`, erased. What only clauses name is unused here, and code after an error of memory is never run.
/// Its style is that of Rattle's text. Its path is hidden: the modules named by their jobs show what is in it.
macro_rules! erased {
    ($($(#[$attribute:meta])* $name:ident)*) => {
        $(
            $(#[$attribute])*
            #[allow(dead_code, unreachable_code, unused_imports)]
            #[allow(clippy::complexity, clippy::style, clippy::drop_non_drop)]
            #[doc(hidden)]
            pub mod $name;
        )*
    };
}

erased! {
    lexical
    literal_escaper
    #[allow(unused_variables)]
    pm_span
    pm_token
    pm_stream
    #[cfg(feature = "token_buffer")]
    token_buffer
    #[cfg(feature = "whole")]
    proc_macro2
    #[cfg(feature = "quoting")]
    quoting
    #[cfg(feature = "explain")]
    #[allow(unused_variables)]
    explain
    #[cfg(feature = "layout")]
    layout
    #[cfg(feature = "pretty_printer")]
    #[allow(unused_variables)]
    pretty_printer
    #[cfg(feature = "relayout")]
    relayout
    #[cfg(feature = "declarations")]
    item_tables
    #[cfg(feature = "declarations")]
    #[allow(unused_variables)]
    declarations
    #[cfg(feature = "item_headers")]
    item_headers
}

pub mod contracts;
pub mod error;
mod native;
#[cfg(feature = "whole")]
pub mod text;
#[cfg(feature = "whole")]
pub mod walk;

#[cfg(feature = "explain")]
pub mod check;
#[cfg(feature = "token_buffer")]
pub mod cursor;
#[cfg(feature = "declarations")]
pub mod items;
#[cfg(any(feature = "layout", feature = "relayout"))]
pub mod print;
#[cfg(feature = "quoting")]
pub mod quote;

#[cfg(feature = "whole")]
#[doc(inline)]
pub use crate::proc_macro2::{
    extra::DelimSpan, Delimiter, Group, Ident, LineColumn, Literal, Punct, SourceMap, Spacing, Span, TokenStream,
    TokenTree,
};

/// The examples of the page that describes this package.
#[cfg(doctest)]
#[doc = include_str!("../README.md")]
struct Readme;

/// The examples of the repository's first page, which may use all features. The page is not in the package.
#[cfg(all(
    doctest,
    feature = "quote",
    feature = "items",
    feature = "print",
    feature = "check",
    feature = "cursor"
))]
#[doc = include_str!("../../../README.md")]
struct FirstPage;
