//! Printing and listing the tokens of files, and values.
use crate::noted::Noted;
use crate::trees::{ask_values, note, parsed};
use proved_tokens::proc_macro2::{place_trees, reprint, TokenTree};
use proved_tokens::token_buffer::{Cursor, LiteralText, TokenBuffer, TokenText};
use workloads::random::Random;
use workloads::texts::{size, source, table};

pub fn ask(random: &mut Random, files: u64, items: &[&str], noted: &mut Noted) {
    for number in 0..files {
        let bytes = size(random);
        let Ok(text) = if number % 4 == 3 {
            table(random, bytes / 200)
        } else {
            source(random, items, bytes)
        };
        list(text.as_str(), noted);
    }
}

fn list(text: &str, noted: &mut Noted) {
    noted.text(reprint(text).expect("the text parses").as_str());
    let places = place_trees(text).expect("the text parses");
    noted.number(places.len());
    for place in places {
        noted.shown(&place);
    }
    let buffer = TokenBuffer::new(text).expect("the text parses");
    read(buffer.begin(), noted);
    let Ok(stream) = buffer.begin().to_stream();
    note(&stream, noted);
    let stream = parsed(text);
    let mut walk = stream.walk();
    while let Some(tree) = walk.next() {
        noted.shown(&tree.span());
        if let TokenTree::Literal(literal) = tree {
            ask_values(literal, noted);
        }
    }
}

/// Notes all tokens with their spans, each group before those inside it, and where each group ends.
fn read(all: Cursor<'_>, noted: &mut Noted) {
    let mut outer = Vec::new();
    let mut here = all;
    loop {
        noted.flag(here.eof());
        noted.shown(&here.span());
        let Some((token, rest)) = here.next() else {
            match outer.pop() {
                None => return,
                Some(back) => here = back,
            }
            continue;
        };
        noted.shown(&(here.ident().is_some(), here.punct().is_some(), here.literal().is_some()));
        noted.shown(&here.lifetime().map(|(name, after)| (name.raw, name.text, after.span())));
        here = rest;
        match token {
            TokenText::Ident(name) => noted.shown(&(name.raw, name.text)),
            TokenText::Punct(mark, spacing) => noted.shown(&(mark, spacing)),
            TokenText::Literal(LiteralText::Source(text)) => noted.text(text),
            TokenText::Literal(LiteralText::Doc(text)) => noted.shown(&("doc", text)),
            TokenText::Group(delimiter, inside) => {
                noted.shown(&delimiter);
                outer.push(rest);
                here = inside;
            }
        }
    }
}
