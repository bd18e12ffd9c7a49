//! Streams.
use crate::calls::{repeat, Row};
use crate::tokens::ident;
use proc_macro2::{Delimiter, Group, Punct, Spacing, TokenStream, TokenTree};
use std::hint::black_box;

const LINE: &str = "pub fn f<'a>(x: &'a str) -> Vec<u8> { x.bytes().map(|b| b + 1).collect() }";

pub const ROWS: &[Row] = &[
    ("stream_new", |calls| repeat(calls, TokenStream::new)),
    ("punct_new", |calls| repeat(calls, mark)),
    ("stream_clone", |calls| {
        let line = parsed(LINE);
        repeat(calls, || black_box(&line).clone());
    }),
    ("from_tree", |calls| repeat(calls, || TokenStream::from(mark()))),
    ("extend_one_mark", |calls| extend(calls, mark)),
    ("extend_one_ident", |calls| {
        let name = ident("identifier");
        extend(calls, || TokenTree::Ident(name.clone()));
    }),
    ("collect_shared_trees", |calls| {
        let line = parsed(LINE);
        repeat(calls, || line.clone().into_iter().collect::<TokenStream>());
    }),
    ("collect_streams", |calls| {
        let word = parsed("word");
        repeat(calls, || [word.clone(), word.clone()].into_iter().collect::<TokenStream>());
    }),
    ("group_new", |calls| {
        let line = parsed(LINE);
        repeat(calls, || Group::new(Delimiter::Brace, line.clone()));
    }),
    ("walk_line", |calls| {
        let line = parsed(LINE);
        repeat(calls, || count(line.clone()));
    }),
    ("parse_word", |calls| repeat(calls, || black_box("word").parse::<TokenStream>())),
    ("parse_line", |calls| repeat(calls, || black_box(LINE).parse::<TokenStream>())),
    ("print_word", |calls| {
        let word = parsed("word");
        repeat(calls, || black_box(&word).to_string());
    }),
    ("print_line", |calls| {
        let line = parsed(LINE);
        repeat(calls, || black_box(&line).to_string());
    }),
];

fn parsed(text: &str) -> TokenStream {
    text.parse().expect("the text parses")
}

fn mark() -> TokenTree {
    TokenTree::Punct(Punct::new(black_box('+'), Spacing::Alone))
}

/// Puts a tree into a stream, which grows by one with each call.
fn extend(calls: u32, tree: impl Fn() -> TokenTree) {
    let mut stream = TokenStream::new();
    repeat(calls, || stream.extend([tree()]));
}

/// The trees, those in groups too.
fn count(stream: TokenStream) -> usize {
    let in_tree = |tree| match tree {
        TokenTree::Group(group) => 1 + count(group.stream()),
        _ => 1,
    };
    stream.into_iter().map(in_tree).sum()
}
