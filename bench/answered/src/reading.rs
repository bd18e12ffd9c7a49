//! Reading files into one map: trees, spans, items.
use crate::noted::Noted;
use crate::trees::{ask_span, ask_spans, note};
use proved_tokens::declarations::{parse_file, split_attributes, split_visibility, AnyItem};
use proved_tokens::proc_macro2::{SourceMap, Span, TokenStream, TokenTree};
use workloads::random::Random;
use workloads::texts::{size, source};

pub fn ask(random: &mut Random, files: u64, items: &[&str], noted: &mut Noted) {
    let mut map = SourceMap::new();
    let mut streams = Vec::new();
    for _ in 0..files {
        let bytes = size(random);
        let Ok(text) = source(random, items, bytes);
        let stream = TokenStream::from_str(text.as_str(), &mut map).expect("the text parses");
        note(&stream, noted);
        ask_spans(&stream, &mut map, noted);
        ask_items(stream.trees(), noted);
        streams.push(stream);
    }
    for stream in &streams {
        for tree in stream.trees() {
            ask_span(tree.span(), Span::call_site(), &mut map, noted);
        }
    }
    map.invalidate();
    for stream in &streams {
        for tree in stream.trees() {
            noted.flag(map.holds(tree.span()));
        }
    }
}

/// Notes the items that the trees are, and those within them, or where the trees are none.
fn ask_items(trees: &[TokenTree], noted: &mut Noted) {
    match parse_file(trees) {
        Err(fault) => {
            noted.shown(&fault);
            noted.printed(&fault);
        }
        Ok(file) => {
            noted.number(file.inner.len());
            noted.number(file.items.left.len());
            for item in file.items {
                match item {
                    Err(fault) => noted.shown(&fault),
                    Ok(item) => ask_item(item, noted),
                }
            }
        }
    }
}

fn ask_item(item: AnyItem<'_>, noted: &mut Noted) {
    noted.shown(&(item.kind, item.name, item.trees.len()));
    noted.shown(&item.trees.first().map(TokenTree::span));
    match split_attributes(item.trees) {
        Err(fault) => noted.shown(&fault),
        Ok((attributes, rest)) => {
            noted.number(attributes.len());
            noted.shown(&split_visibility(rest).map(|(visibility, rest)| (visibility.len(), rest.len())));
        }
    }
    if let Some(body) = item.body() {
        noted.shown(&body.span());
        ask_items(body.stream_ref().trees(), noted);
    }
}
