//! What `quote!` makes of a quote, by hand: it puts each token into a stream by a call of its own.
use crate::calls::{repeat, Row};
use crate::tokens::ident;
use proc_macro2::{Delimiter, Group, Ident, Literal, Punct, Spacing, Span, TokenStream, TokenTree};
use std::hint::black_box;
use std::iter::once;

pub const ROWS: &[Row] = &[
    ("quote_one", |calls| {
        let name = ident("identifier");
        repeat(calls, || {
            let mut stream = TokenStream::new();
            append(&mut stream, black_box(&name).clone());
            stream
        });
    }),
    ("quote_small", |calls| {
        let name = ident("identifier");
        repeat(calls, || small(black_box(&name)));
    }),
    ("quote_function", |calls| {
        let (name, text) = (ident("identifier"), Literal::string("a text of some length"));
        repeat(calls, || function(black_box(&name), black_box(&text)));
    }),
];

fn append(stream: &mut TokenStream, tree: impl Into<TokenTree>) {
    stream.extend(once(tree.into()));
}

// The functions of quote that `quote!` calls are never copied to their callers: they are compiled in quote.
#[inline(never)]
fn word(stream: &mut TokenStream, word: &str) {
    append(stream, Ident::new(word, Span::call_site()));
}

#[inline(never)]
fn mark(stream: &mut TokenStream, mark: char) {
    append(stream, Punct::new(mark, Spacing::Alone));
}

#[inline(never)]
fn marks(stream: &mut TokenStream, first: char, second: char) {
    append(stream, Punct::new(first, Spacing::Joint));
    append(stream, Punct::new(second, Spacing::Alone));
}

fn group(stream: &mut TokenStream, delimiter: Delimiter, fill: impl Fn(&mut TokenStream)) {
    let mut inside = TokenStream::new();
    fill(&mut inside);
    append(stream, Group::new(delimiter, inside));
}

/// `let x = #name;`
fn small(name: &Ident) -> TokenStream {
    let mut stream = TokenStream::new();
    word(&mut stream, "let");
    word(&mut stream, "x");
    mark(&mut stream, '=');
    append(&mut stream, name.clone());
    mark(&mut stream, ';');
    stream
}

/// `pub fn #name(x: &str) -> Vec<u8> { let y = #text; x.bytes().map(|b| b + 1).collect() }`
fn function(name: &Ident, text: &Literal) -> TokenStream {
    let mut stream = TokenStream::new();
    word(&mut stream, "pub");
    word(&mut stream, "fn");
    append(&mut stream, name.clone());
    group(&mut stream, Delimiter::Parenthesis, |stream| {
        word(stream, "x");
        mark(stream, ':');
        mark(stream, '&');
        word(stream, "str");
    });
    marks(&mut stream, '-', '>');
    word(&mut stream, "Vec");
    mark(&mut stream, '<');
    word(&mut stream, "u8");
    mark(&mut stream, '>');
    group(&mut stream, Delimiter::Brace, |stream| body(stream, text));
    stream
}

fn body(stream: &mut TokenStream, text: &Literal) {
    word(stream, "let");
    word(stream, "y");
    mark(stream, '=');
    append(stream, text.clone());
    mark(stream, ';');
    word(stream, "x");
    mark(stream, '.');
    word(stream, "bytes");
    group(stream, Delimiter::Parenthesis, |_| {});
    mark(stream, '.');
    word(stream, "map");
    group(stream, Delimiter::Parenthesis, |stream| {
        mark(stream, '|');
        word(stream, "b");
        mark(stream, '|');
        word(stream, "b");
        mark(stream, '+');
        stream.extend(once("1".parse::<TokenStream>().expect("a number parses")));
    });
    mark(stream, '.');
    word(stream, "collect");
    group(stream, Delimiter::Parenthesis, |_| {});
}
