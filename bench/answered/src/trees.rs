//! All that trees and spans answer.
use crate::noted::Noted;
use proved_tokens::proc_macro2::{Literal, SourceMap, Span, TokenStream, TokenTree};
use proved_tokens::pm_stream::Step;

/// The trees of a text that parses.
pub fn parsed(text: &str) -> TokenStream {
    TokenStream::parse_unmapped(text).expect("the text parses")
}

/// Notes the printed stream, and each tree with all of its parts and its span.
pub fn note(stream: &TokenStream, noted: &mut Noted) {
    noted.printed(stream);
    noted.flag(stream.is_well_spaced());
    let mut steps = stream.steps();
    loop {
        let step = steps.next();
        match step {
            None => return,
            Some(Step::Enter(group, after)) => {
                noted.shown(&group.delimiter());
                noted.shown(&(group.span(), group.span_open(), group.span_close(), group.delim_span().join()));
                noted.number(group.stream_ref().trees().len());
                noted.number(after.len());
            }
            Some(Step::Leave(group, after)) => {
                noted.shown(&group.span());
                noted.number(after.len());
            }
            Some(Step::Token(tree, after)) => {
                token(tree, noted);
                noted.number(after.len());
            }
        }
    }
}

fn token(tree: &TokenTree, noted: &mut Noted) {
    noted.shown(tree);
    noted.printed(tree);
    noted.shown(&tree.span());
    match tree {
        TokenTree::Ident(name) => noted.number(name.first_byte().into()),
        TokenTree::Punct(mark) => noted.shown(&(mark.as_char(), mark.spacing())),
        TokenTree::Literal(literal) => noted.text(literal.text()),
        TokenTree::Group(_) => {}
    }
}

/// Notes all that each span of a stream's trees, and of its delimiters, is asked of the map.
pub fn ask_spans(stream: &TokenStream, map: &mut SourceMap, noted: &mut Noted) {
    let mut before = Span::call_site();
    let mut walk = stream.walk();
    while let Some(tree) = walk.next() {
        ask_span(tree.span(), before, map, noted);
        if let TokenTree::Group(group) = tree {
            ask_span(group.span_open(), tree.span(), map, noted);
            ask_span(group.span_close(), before, map, noted);
        }
        before = tree.span();
    }
}

/// Notes all that a span is asked of the map, and what it and another are.
pub fn ask_span(span: Span, other: Span, map: &mut SourceMap, noted: &mut Noted) {
    noted.flag(map.holds(span));
    if !map.holds(span) {
        return;
    }
    noted.shown(&(span.start(map), span.end(map)));
    noted.shown(&span.byte_range(map));
    let Ok(text) = span.source_text(map);
    noted.shown(&text);
    noted.shown(&span.source_str(map));
    let Ok(file) = span.file(map);
    noted.text(file.as_str());
    noted.shown(&span.join(other, map));
}

/// Notes what a literal stands for, or why it stands for nothing of that kind.
pub fn ask_values(literal: &Literal, noted: &mut Noted) {
    noted.shown(&literal.str_value());
    noted.shown(&literal.char_value());
    noted.shown(&literal.byte_value());
    noted.shown(&literal.byte_str_value());
    noted.shown(&literal.cstr_value());
}
