//! Filling templates, and finishing quotes.
use crate::calls::{repeat, Row};
use crate::texts::parsed;
use proved_tokens::proc_macro2::{Punct, Spacing, TokenStream, TokenTree};
use proved_tokens::quoting::{Hole, Quote};
use std::hint::black_box;

const FUNCTION: &str = "pub fn #one(x: &str) -> Vec<u8> { let y = #many; x.bytes().map(|b| b + 1).collect() }";

pub const ROWS: &[Row] = &[
    ("fill_name", |calls| fill(calls, "x")),
    ("fill_hole", |calls| fill(calls, "x #one")),
    ("fill_and_finish_hole", |calls| fill_and_finish(calls, "x #one")),
    ("fill_nested_groups", |calls| fill(calls, "( [ { ( [ { ( [ #one ] ) } ] ) } ] )")),
    ("fill_many_trees", |calls| fill(calls, "#many #many #many")),
    ("fill_empty_holes", |calls| fill(calls, "{ x #nil #nil #nil }")),
    ("fill_and_finish_function", |calls| fill_and_finish(calls, FUNCTION)),
    ("finish_marks_to_mend", |calls| finish(calls, 20, None)),
    ("finish_marks_to_mend_and_lone_quote", |calls| finish(calls, 20, Some('\''))),
];

/// Gives a filled quote to what is done with it.
fn filled<T>(calls: u32, template: &str, then: impl Fn(Quote) -> T) {
    let template = parsed(template);
    let (one, nil, many) = (parsed("a b c"), parsed(""), parsed(&"word ".repeat(30)));
    let holes = [Hole::one("one", &one), Hole::one("nil", &nil), Hole::one("many", &many)];
    repeat(calls, || {
        let mut quote = Quote::new();
        quote.fill(black_box(&template), black_box(&holes)).expect("the template is filled");
        then(quote)
    });
}

fn fill(calls: u32, template: &str) {
    filled(calls, template, |quote| quote);
}

fn fill_and_finish(calls: u32, template: &str) {
    filled(calls, template, |quote| quote.finish());
}

/// Finishes a quote of so many joint marks, each before a name, and of the last mark, if there is one.
fn finish(calls: u32, marks: usize, last: Option<char>) {
    let mut quote = Quote::new();
    let name = parsed("a");
    for _ in 0..marks {
        let Ok(()) = quote.push(TokenTree::Punct(Punct::new('+', Spacing::Joint)));
        let Ok(()) = quote.push_stream(copied(&name));
    }
    if let Some(mark) = last {
        let Ok(()) = quote.push(TokenTree::Punct(Punct::new(mark, Spacing::Alone)));
    }
    repeat(calls, || black_box(&quote).finish().is_ok());
}

fn copied(stream: &TokenStream) -> TokenStream {
    let copy = stream.clone();
    copy
}
