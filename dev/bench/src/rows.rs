//! Times of calls of a few nanoseconds: each is made many times over, and the least mean of some rounds counts.
use crate::measure::now;
use proc_macro2::{Delimiter, Group, Ident, Literal, Punct, Spacing, Span, TokenStream, TokenTree};
use quote::quote;
use std::hint::black_box;
use std::mem::size_of;

const ROUNDS: u32 = 15;
/// How long a round takes at least, in nanoseconds, so that the clock tells rounds apart.
const ROUND: u64 = 2_000_000;
const TREES: u32 = 10_000;

const LINE: &str = "pub fn f<'a>(x: &'a str) -> Vec<u8> { x.bytes().map(|b| b + 1).collect() }";
const LONG_NAME: &str = "identifier_of_thirty_characters";
const LONG_TEXT: &str = "a text of some length, with \"quotes\"";

/// The time of so many calls.
fn round<T>(calls: u32, call: &mut impl FnMut() -> T) -> u64 {
    let start = now();
    for _ in 0..calls {
        drop(black_box(call()));
    }
    now() - start
}

/// The mean time of a call, and of dropping what it answers.
fn mean<T>(mut call: impl FnMut() -> T) -> f64 {
    let mut calls = 1;
    while round(calls, &mut call) < ROUND {
        calls *= 2;
    }
    let least = (0..ROUNDS).map(|_| round(calls, &mut call)).min().unwrap_or(0);
    least as f64 / f64::from(calls)
}

fn row<T>(name: &str, call: impl FnMut() -> T) {
    println!("{name} {:.2}", mean(call));
}

/// Prints what it takes to put in one tree more, from an empty stream on.
fn extend(name: &str, tree: impl Fn() -> TokenTree) {
    let all = || {
        let mut stream = TokenStream::new();
        for _ in 0..TREES {
            stream.extend([tree()]);
        }
        stream
    };
    println!("{name} {:.2}", mean(all) / f64::from(TREES));
}

fn ident(name: &str) -> Ident {
    Ident::new(name, Span::call_site())
}

fn mark() -> TokenTree {
    TokenTree::Punct(Punct::new(black_box('+'), Spacing::Alone))
}

/// The trees, those in groups too.
fn count(stream: TokenStream) -> usize {
    let in_tree = |tree| match tree {
        TokenTree::Group(group) => 1 + count(group.stream()),
        _ => 1,
    };
    stream.into_iter().map(in_tree).sum()
}

/// Prints how many bytes a value takes.
fn size<T>(name: &str) {
    println!("size_of_{name} {}", size_of::<T>());
}

fn names() {
    let (short, long) = (ident("identifier"), ident(LONG_NAME));
    row("ident_new", || ident(black_box("identifier")));
    row("ident_new_one_letter", || ident(black_box("x")));
    row("ident_new_long", || ident(black_box(LONG_NAME)));
    row("ident_new_not_ascii", || ident(black_box("größe")));
    row("ident_new_raw", || Ident::new_raw(black_box("type"), Span::call_site()));
    row("ident_clone", || black_box(&short).clone());
    row("ident_clone_long", || black_box(&long).clone());
    row("ident_is_text", || black_box(&short) == "identifier");
    row("ident_is_other_text", || black_box(&short) == "struct");
    row("ident_is_unknown_text", || black_box(&short) == black_box("identifier"));
    let other = ident("identifier");
    row("ident_is_ident", || black_box(&short) == black_box(&other));
    row("ident_to_string", || black_box(&short).to_string());
}

fn literals() {
    let (short, long) = (Literal::string("a text"), Literal::string(LONG_TEXT));
    row("usize_unsuffixed", || Literal::usize_unsuffixed(black_box(12345)));
    row("i32_unsuffixed", || Literal::i32_unsuffixed(black_box(-123)));
    row("u8_suffixed", || Literal::u8_suffixed(black_box(200)));
    row("u64_suffixed", || Literal::u64_suffixed(black_box(u64::MAX)));
    row("u128_suffixed", || Literal::u128_suffixed(black_box(u128::MAX)));
    row("f64_unsuffixed", || Literal::f64_unsuffixed(black_box(1.5)));
    row("literal_character", || Literal::character(black_box('c')));
    row("literal_string", || Literal::string(black_box("a text")));
    row("literal_string_long", || Literal::string(black_box(LONG_TEXT)));
    row("literal_clone", || black_box(&short).clone());
    row("literal_clone_long", || black_box(&long).clone());
}

fn streams() -> Result<(), Box<dyn std::error::Error>> {
    let (word, line): (TokenStream, TokenStream) = ("word".parse()?, LINE.parse()?);
    let name = ident("identifier");
    let text = Literal::string("a text of some length");
    row("stream_new", TokenStream::new);
    row("stream_clone", || black_box(&line).clone());
    row("from_tree", || TokenStream::from(mark()));
    extend("extend_one_mark", mark);
    extend("extend_one_ident", || TokenTree::Ident(name.clone()));
    row("collect_shared_trees", || line.clone().into_iter().collect::<TokenStream>());
    row("collect_streams", || [word.clone(), word.clone()].into_iter().collect::<TokenStream>());
    row("group_new", || Group::new(Delimiter::Brace, line.clone()));
    row("punct_new", mark);
    row("walk_line", || count(line.clone()));
    row("parse_word", || black_box("word").parse::<TokenStream>());
    row("parse_line", || black_box(LINE).parse::<TokenStream>());
    row("print_word", || word.to_string());
    row("print_line", || line.to_string());
    row("quote_one", || quote! { #name });
    row("quote_small", || quote! { let x = #name; });
    row("quote_function", || {
        quote! { pub fn #name(x: &str) -> Vec<u8> { let y = #text; x.bytes().map(|b| b + 1).collect() } }
    });
    Ok(())
}

/// Prints all of them.
pub fn run() -> Result<(), Box<dyn std::error::Error>> {
    names();
    literals();
    streams()?;
    size::<Ident>("ident");
    size::<Literal>("literal");
    size::<TokenTree>("token_tree");
    size::<TokenStream>("token_stream");
    Ok(())
}
