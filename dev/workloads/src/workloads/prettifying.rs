// Made from crates/workloads/src/prettifying.rt by dev/erase: change that file, not this one.
//! Making generated code readable.

use crate::shim::prelude::format;

use crate::workloads::digest::Digest;
use crate::workloads::fails::Fail;
use crate::workloads::random::Random;
use crate::workloads::texts::{size, source};
use proved_tokens::pretty_printer::to_pretty_string;
use proved_tokens::proc_macro2::TokenStream;
use proved_tokens::relayout::with_doc_comments;

/// Prints so many texts on one line each, as generators do, reads that, and writes it for people.
pub fn run(
    random: &mut Random,
    files: u64,
    items: &[&str],
    digest: &mut Digest,
) -> Result<(), Fail> {
    for _ in 0..files {
        let bytes = size(random);
        let text = source(random, items, bytes)?;
        let line = one_line(text.as_str())?;
        let stream = TokenStream::parse_unmapped(line.as_str())?;
        let pretty = to_pretty_string(&stream)?;
        match with_doc_comments(pretty.as_str()) {
            Ok(shown) => digest.text(shown.as_str()),
            Err(_) => return Err(Fail::Refused),
        }
    }
    Ok(())
}

// The tokens of a text, on one line.
fn one_line(text: &str) -> Result<String, Fail> {
    let stream = TokenStream::parse_unmapped(text)?;
    Ok(format!("{stream}")?)
}
