// Made from crates/workloads/src/reading.rt by dev/erase: change that file, not this one.
//! Reading a code base into one map: its trees, where each of them stands, its text, and its items.

use crate::shim::prelude::{Grow, format};

use crate::workloads::digest::Digest;
use crate::workloads::fails::Fail;
use crate::workloads::random::Random;
use crate::workloads::texts::{size, source};
use proved_tokens::declarations::parse_file;
use proved_tokens::proc_macro2::{SourceMap, Span, TokenStream, TokenTree};
use crate::shim::alloc::AllocError;

/// Reads so many files into one map, and asks about each tree of each file. The trees of all files are kept.
pub fn run(
    random: &mut Random,
    files: u64,
    items: &[&str],
    digest: &mut Digest,
) -> Result<(), Fail> {
    let mut map = SourceMap::new();
    let mut streams = Vec::new();
    for _ in 0..files {
        let bytes = size(random);
        let text = source(random, items, bytes)?;
        let stream = TokenStream::from_str(text.as_str(), &mut map)?;
        ask(&stream, &mut map, digest)?;
        streams.push_fallibly(stream)?;
    }
    // The way back over all files, of which a span's is one of many.
    for stream in streams.as_slice() {
        ask_files(stream, &map, digest)?;
    }
    Ok(())
}

// What is asked of a file once it is read.
fn ask(
    stream: &TokenStream,
    map: &mut SourceMap,
    digest: &mut Digest,
) -> Result<(), Fail>
{
    ask_items(stream, map, digest)?;
    ask_places(stream, map, digest)?;
    ask_bytes(stream, map, digest)?;
    ask_texts(stream, map, digest)?;
    Ok(())
}

// The items of a file: kinds, names, and the line of each.
fn ask_items(
    stream: &TokenStream,
    map: &SourceMap,
    digest: &mut Digest,
) -> Result<(), AllocError> {
    let Ok(file) = parse_file(stream.trees()) else {
        digest.text("no file");
        return Ok(());
    };
    for item in file.items {
        if let Ok(item) = item {
            digest.number(item.kind as u64);
            if let Some(name) = item.name {
                digest.text(format!("{name}")?.as_str());
                if map.holds(name.span()) {
                    digest.number(name.span().start(map).line as u64);
                }
            }
        }
    }
    Ok(())
}

// Line and column of both ends of each tree.
fn ask_places(stream: &TokenStream, map: &SourceMap, digest: &mut Digest) -> Result<(), AllocError>
{
    let mut walk = stream.walk();
    while let Some(tree) = walk.try_next()? {
        ask_place(tree.span(), map, digest);
    }
    Ok(())
}

fn ask_place(span: Span, map: &SourceMap, digest: &mut Digest)
{
    let start = span.start(map);
    let end = span.end(map);
    digest.number((start.line as u64) << 20 ^ start.column as u64);
    digest.number((end.line as u64) << 20 ^ end.column as u64);
}

// The bytes of each tree.
fn ask_bytes(
    stream: &TokenStream,
    map: &mut SourceMap,
    digest: &mut Digest,
) -> Result<(), AllocError>
{
    let mut walk = stream.walk();
    while let Some(tree) = walk.try_next()? {
        ask_range(tree.span(), map, digest);
    }
    Ok(())
}

fn ask_range(span: Span, map: &mut SourceMap, digest: &mut Digest)
{
    let range = span.byte_range(map);
    digest.number(range.start as u64);
    digest.number(range.end as u64);
}

// The text of each tree but groups, in a text of its own.
fn ask_texts(
    stream: &TokenStream,
    map: &mut SourceMap,
    digest: &mut Digest,
) -> Result<(), AllocError>
{
    let mut walk = stream.walk();
    while let Some(tree) = walk.try_next()? {
        ask_text(tree, tree.span(), map, digest)?;
    }
    Ok(())
}

fn ask_text(
    tree: &TokenTree,
    span: Span,
    map: &mut SourceMap,
    digest: &mut Digest,
) -> Result<(), AllocError>
{
    if let TokenTree::Group(_) = tree {
        return Ok(());
    }
    if let Some(text) = span.source_text(map)? {
        digest.text(text.as_str());
    }
    Ok(())
}

// The file and the first line of each tree outside of groups.
fn ask_files(stream: &TokenStream, map: &SourceMap, digest: &mut Digest) -> Result<(), AllocError> {
    for tree in stream.trees() {
        let span = tree.span();
        if map.holds(span) {
            digest.number(span.start(map).line as u64);
            if let Some(text) = span.source_str(map) {
                digest.number(text.len() as u64);
            }
        }
    }
    Ok(())
}
