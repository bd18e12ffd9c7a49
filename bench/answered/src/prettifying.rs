//! Making generated code readable.
use crate::noted::Noted;
use crate::trees::{note, parsed};
use proved_tokens::pretty_printer::to_pretty_string;
use proved_tokens::relayout::with_doc_comments;
use workloads::random::Random;
use workloads::texts::{size, source};

pub fn ask(random: &mut Random, files: u64, items: &[&str], noted: &mut Noted) {
    for _ in 0..files {
        let bytes = size(random);
        let Ok(text) = source(random, items, bytes);
        let line = parsed(text.as_str()).to_string();
        let stream = parsed(&line);
        note(&stream, noted);
        pretty(&stream, noted);
    }
}

/// Notes the stream's pretty text, and that with doc comments.
pub fn pretty(stream: &proved_tokens::proc_macro2::TokenStream, noted: &mut Noted) {
    let pretty = to_pretty_string(stream).expect("the stream can be laid out");
    noted.text(pretty.as_str());
    noted.shown(&with_doc_comments(pretty.as_str()));
    note(&parsed(pretty.as_str()), noted);
}
