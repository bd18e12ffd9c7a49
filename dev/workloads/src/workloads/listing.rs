// Made from crates/workloads/src/listing.rt by dev/erase: change that file, not this one.
//! Printing and listing the tokens of files: sources, and tables as generators write them.

use crate::shim::prelude::Grow;

use crate::workloads::digest::Digest;
use crate::workloads::fails::Fail;
use crate::workloads::random::Random;
use crate::workloads::texts::{size, source, table};
use proved_tokens::proc_macro2::{Place, TokenStream, TokenTree, place_trees, reprint};
use crate::shim::alloc::AllocError;
use proved_tokens::token_buffer::{Cursor, LiteralText, TokenBuffer, TokenText};

/// Prints and lists the tokens of so many files, every fourth of them a table.
pub fn run(
    random: &mut Random,
    files: u64,
    items: &[&str],
    digest: &mut Digest,
) -> Result<(), Fail> {
    for number in 0..files {
        let bytes = size(random);
        if number % 4 == 3 {
            let text = table(random, bytes / 200)?;
            list(text.as_str(), digest)?;
            read_values(text.as_str(), digest)?;
        } else {
            let text = source(random, items, bytes)?;
            list(text.as_str(), digest)?;
        }
    }
    Ok(())
}

// What is printed, where the trees stand, and the tokens one after another.
fn list(text: &str, digest: &mut Digest) -> Result<(), Fail> {
    digest.text(reprint(text)?.as_str());
    for tree in place_trees(text)? {
        digest.number(tree.kind as u64 ^ both(tree.start) << 2 ^ both(tree.end) << 17);
    }
    let buffer = TokenBuffer::new(text)?;
    read_tokens(buffer.begin(), digest)?;
    Ok(())
}

fn both(place: Place) -> u64 {
    (place.line as u64) << 32 | place.column as u64
}

// All tokens, each group before those inside it.
fn read_tokens(all: Cursor<'_>, digest: &mut Digest) -> Result<(), AllocError> {
    let mut outer = Vec::new();
    let mut here = all;
    for _ in 0..u64::MAX {
        let Some((token, rest)) = here.next() else {
            let Some(back) = outer.pop() else {
                return Ok(());
            };
            here = back;
            continue;
        };
        here = rest;
        match token {
            TokenText::Ident(name) => digest.text(name.text),
            TokenText::Punct(mark, spacing) => digest.number((mark as u64) << 1 | spacing as u64),
            TokenText::Literal(LiteralText::Source(text)) => digest.text(text),
            TokenText::Literal(LiteralText::Doc(text)) => digest.text(text),
            TokenText::Group(delimiter, inside) => {
                digest.number(delimiter as u64);
                outer.push_fallibly(rest)?;
                here = inside;
            }
        }
    }
    Ok(())
}

// What the literals of a table stand for.
fn read_values(text: &str, digest: &mut Digest) -> Result<(), Fail> {
    let stream = TokenStream::parse_unmapped(text)?;
    let mut walk = stream.walk();
    for _ in 0..u64::MAX {
        let Some(tree) = walk.try_next()? else {
            return Ok(());
        };
        if let TokenTree::Literal(literal) = tree {
            if let Ok(value) = literal.str_value() {
                digest.text(value.as_str());
            }
            if let Ok(value) = literal.char_value() {
                digest.number(value as u64);
            }
            if let Ok(value) = literal.byte_str_value() {
                digest.bytes(value.as_slice());
            }
        }
    }
    Ok(())
}
