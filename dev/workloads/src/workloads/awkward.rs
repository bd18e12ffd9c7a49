// Made from crates/workloads/src/awkward.rt by dev/erase: change that file, not this one.
//! Texts that are awkward: one line beyond ASCII, groups nested deeply, documentation alone, one literal of escapes,
//! and floats.

use crate::shim::prelude::{Grow, GrowText, format};

use crate::workloads::digest::Digest;
use crate::workloads::fails::Fail;
use crate::workloads::random::Random;
use proved_tokens::pretty_printer::to_pretty_string;
use proved_tokens::proc_macro2::{Literal, SourceMap, Span, TokenStream, TokenTree, reprint};
use proved_tokens::relayout::with_doc_comments;
use crate::shim::alloc::AllocError;

/// How many texts of each kind there are.
const ROUNDS: u64 = 4;

/// Reads texts of each kind: a line and a literal of about so many thousand bytes, a hundred times as many groups, ten
/// times as many lines of documentation and floats.
pub fn run(
    random: &mut Random,
    size: u64,
    _items: &[&str],
    digest: &mut Digest,
) -> Result<(), Fail> {
    let size = size.min(10_000);
    for _ in 0..ROUNDS {
        ask_line(random, size * 150, digest)?;
        read_nested(random, size * 100, digest)?;
        read_docs(random, size * 10, digest)?;
        read_literal(random, size * 100, digest)?;
        read_floats(random, size * 10, digest)?;
    }
    Ok(())
}

// One line of so many words beyond ASCII, whose spans are asked in any order.
fn ask_line(
    random: &mut Random,
    words: u64,
    digest: &mut Digest,
) -> Result<(), Fail> {
    let mut text = String::new();
    for _ in 0..words {
        text.push_str_fallibly(random.one_of(WORDS))?;
        text.push_fallibly(' ')?;
    }
    let mut map = SourceMap::new();
    let stream = TokenStream::from_str(text.as_str(), &mut map)?;
    let mut spans = Vec::new();
    for tree in stream.trees() {
        spans.push_fallibly(tree.span())?;
    }
    for _ in 0..spans.len() {
        let at = random.index(words);
        if let Some(span) = spans.get(at) {
            ask(*span, &mut map, digest)?;
        }
    }
    Ok(())
}

const WORDS: &[&str] = &[
    "größe",
    "名前",
    "x",
    "+",
    "'é'",
    "\"naïve\"",
    "alpha",
    "Ωμέγα",
    "42",
];

fn ask(span: Span, map: &mut SourceMap, digest: &mut Digest) -> Result<(), AllocError> {
    if map.holds(span) {
        digest.number(span.start(map).column as u64);
    }
    if map.holds(span) {
        let range = span.byte_range(map);
        digest.number(range.start as u64);
    }
    if map.holds(span) {
        if let Some(text) = span.source_text(map)? {
            digest.text(text.as_str());
        }
    }
    Ok(())
}

// So many groups, each in the one before.
fn read_nested(
    random: &mut Random,
    groups: u64,
    digest: &mut Digest,
) -> Result<(), Fail> {
    let mut text = String::new();
    let mut closers = Vec::new();
    for _ in 0..groups {
        let (open, close) = match random.below(4) {
            0 => ("a[", "]"),
            1 => ("{ b; ", "}"),
            _ => ("(", ")"),
        };
        text.push_str_fallibly(open)?;
        closers.push_fallibly(close)?;
    }
    for _ in 0..groups {
        text.push_str_fallibly(closers.pop().unwrap_or(""))?;
    }
    let stream = TokenStream::parse_unmapped(text.as_str())?;
    digest.number(stream.is_well_spaced() as u64);
    digest.text(reprint(text.as_str())?.as_str());
    let mut walk = stream.walk();
    for _ in 0..u64::MAX {
        let Some(tree) = walk.try_next()? else {
            break;
        };
        if let TokenTree::Ident(name) = tree {
            digest.number(name.first_byte() as u64);
        }
    }
    Ok(())
}

// So many lines of documentation.
fn read_docs(
    random: &mut Random,
    lines: u64,
    digest: &mut Digest,
) -> Result<(), Fail> {
    let mut text = String::new();
    for _ in 0..lines {
        let number = random.next();
        write!(
            text,
            "/// Line {number} says \"something\" with \\ and é.\n"
        )?;
    }
    text.push_str_fallibly("struct S;\n")?;
    let stream = TokenStream::parse_unmapped(text.as_str())?;
    let pretty = to_pretty_string(&stream)?;
    match with_doc_comments(pretty.as_str()) {
        Ok(shown) => digest.text(shown.as_str()),
        Err(_) => return Err(Fail::Refused),
    }
    Ok(())
}

// One literal with so many escapes, and what it stands for written again.
fn read_literal(
    random: &mut Random,
    escapes: u64,
    digest: &mut Digest,
) -> Result<(), Fail> {
    let mut text = String::from_str_fallibly("\"")?;
    for _ in 0..escapes {
        text.push_str_fallibly(random.one_of(ESCAPES))?;
    }
    text.push_fallibly('"')?;
    let stream = TokenStream::parse_unmapped(text.as_str())?;
    for tree in stream.trees() {
        if let TokenTree::Literal(literal) = tree {
            if let Ok(value) = literal.str_value() {
                digest.text(value.as_str());
                let again = Literal::string(value.as_str())?;
                digest.text(again.text());
            }
        }
    }
    Ok(())
}

const ESCAPES: &[&str] = &[
    "\\n",
    "\\t",
    "\\\\",
    "\\\"",
    "\\u{e9}",
    "\\x41",
    "\\u{1F600}",
    "a",
    "\\r",
    "é",
];

// A table of so many rows of floats.
fn read_floats(
    random: &mut Random,
    rows: u64,
    digest: &mut Digest,
) -> Result<(), Fail> {
    let mut text = String::new();
    for _ in 0..rows {
        let (whole, part, power) = (random.below(1_000), random.next(), random.below(300));
        write!(
            text,
            "[{whole}.{part}, -0.{part}e{power}, {whole}., 1e-{power}f64, {part}],\n"
        )?;
    }
    digest.text(reprint(text.as_str())?.as_str());
    let stream = TokenStream::parse_unmapped(text.as_str())?;
    digest.text(format!("{stream}")?.as_str());
    Ok(())
}
