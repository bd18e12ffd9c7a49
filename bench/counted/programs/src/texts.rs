//! Calls on whole texts.
use crate::calls::{repeat, Row};
use proved_tokens::declarations::parse_file;
use proved_tokens::explain::explain;
use proved_tokens::pretty_printer::to_pretty_string;
use proved_tokens::proc_macro2::{place_trees, reprint, SourceMap, TokenStream};
use proved_tokens::relayout::{relayout, with_doc_comments, White};
use proved_tokens::token_buffer::TokenBuffer;
use std::hint::black_box;

const ITEM: &str = "#[derive(Clone)]
pub struct Pair<'a, T: Copy> {
    /// The name.
    pub name: &'a str,
    values: [T; 2],
}
fn total(items: &[Item]) -> u64 {
    let mut sum = 0; // of all
    for item in items.iter().filter(|item| item.size > 0x10 && item.name != \"none\") {
        sum += item.size * 3 / 2;
    }
    if sum > 1_000 { sum } else { 'x' as u64 }
}
";

const DOCS: &str = "#[doc = \" A line of text.\"]\n#[doc = \" Another with \\\"quotes\\\".\"]\nstruct S;\n";

pub const ROWS: &[Row] = &[
    ("parse_names", |calls| repeat(calls, || TokenStream::parse_unmapped(black_box("alpha beta gamma delta")))),
    ("parse_item", |calls| repeat(calls, || TokenStream::parse_unmapped(black_box(ITEM)))),
    ("parse_item_into_map", |calls| {
        repeat(calls, || TokenStream::from_str(black_box(ITEM), &mut SourceMap::new()))
    }),
    ("reprint_item", |calls| repeat(calls, || reprint(black_box(ITEM)))),
    ("place_trees_of_item", |calls| repeat(calls, || place_trees(black_box(ITEM)))),
    ("buffer_item", |calls| repeat(calls, || TokenBuffer::new(black_box(ITEM)))),
    ("explain_item", |calls| repeat(calls, || explain(black_box(ITEM)))),
    ("explain_fault", |calls| repeat(calls, || explain(black_box("fn f() { g(1] }\n")))),
    ("list_items", |calls| {
        let stream = parsed(ITEM);
        repeat(calls, || parse_file(black_box(&stream).trees()).map(|file| file.items.count()));
    }),
    ("to_pretty_string_of_item", |calls| {
        let stream = parsed(ITEM);
        repeat(calls, || to_pretty_string(black_box(&stream)));
    }),
    ("relayout_item", |calls| repeat(calls, || relayout(black_box(ITEM), &[White::Space; 60]))),
    ("doc_comments", |calls| repeat(calls, || with_doc_comments(black_box(DOCS)))),
    ("doc_comments_of_suffixed", |calls| {
        let text = DOCS.replace("\"]", "\"s]");
        repeat(calls, || with_doc_comments(black_box(&text)));
    }),
    ("doc_comments_of_unclosed", |calls| {
        let text = format!("#[doc = \"{}", "a".repeat(1_000));
        repeat(calls, || with_doc_comments(black_box(&text)).is_err());
    }),
];

/// The trees of a text.
pub fn parsed(text: &str) -> TokenStream {
    TokenStream::parse_unmapped(text).expect("the text parses")
}
