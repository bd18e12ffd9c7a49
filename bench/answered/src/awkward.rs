//! Texts that are awkward: one line past ASCII, groups nested deeply, documentation, a literal of escapes, floats.
use crate::noted::Noted;
use crate::prettifying::pretty;
use crate::trees::{ask_span, ask_values, note, parsed};
use proved_tokens::proc_macro2::{place_trees, reprint, Literal, SourceMap, Span, TokenStream, TokenTree};
use workloads::random::Random;

const ROUNDS: u64 = 4;

const WORDS: &[&str] = &["größe", "名前", "x", "+", "'é'", "\"naïve\"", "alpha", "Ωμέγα", "42"];

const ESCAPES: &[&str] = &["\\n", "\\t", "\\\\", "\\\"", "\\u{e9}", "\\x41", "\\u{1F600}", "a", "\\r", "é"];

pub fn ask(random: &mut Random, size: u64, _: &[&str], noted: &mut Noted) {
    let size = size.min(10_000);
    for _ in 0..ROUNDS {
        line(random, size * 150, noted);
        nested(random, size * 100, noted);
        docs(random, size * 10, noted);
        literal(random, size * 100, noted);
        floats(random, size * 10, noted);
    }
}

fn line(random: &mut Random, words: u64, noted: &mut Noted) {
    let text: String = (0..words).map(|_| format!("{} ", random.one_of(WORDS))).collect();
    let mut map = SourceMap::new();
    let stream = TokenStream::from_str(&text, &mut map).expect("the text parses");
    note(&stream, noted);
    let spans: Vec<Span> = stream.trees().iter().map(TokenTree::span).collect();
    for before in &spans {
        if let Some(span) = spans.get(random.index(words)) {
            ask_span(*span, *before, &mut map, noted);
        }
    }
}

fn nested(random: &mut Random, groups: u64, noted: &mut Noted) {
    let (mut text, mut closers) = (String::new(), Vec::new());
    for _ in 0..groups {
        let (open, close) = match random.below(4) {
            0 => ("a[", "]"),
            1 => ("{ b; ", "}"),
            _ => ("(", ")"),
        };
        text.push_str(open);
        closers.push(close);
    }
    closers.iter().rev().for_each(|close| text.push_str(close));
    note(&parsed(&text), noted);
    noted.text(reprint(&text).expect("the text parses").as_str());
    for place in place_trees(&text).expect("the text parses") {
        noted.shown(&place);
    }
}

fn docs(random: &mut Random, lines: u64, noted: &mut Noted) {
    let mut text = String::new();
    for _ in 0..lines {
        let number = random.next();
        text.push_str(&format!("/// Line {number} says \"something\" with \\ and é.\n"));
    }
    text.push_str("struct S;\n");
    let stream = parsed(&text);
    note(&stream, noted);
    pretty(&stream, noted);
}

fn literal(random: &mut Random, escapes: u64, noted: &mut Noted) {
    let mut text = String::from("\"");
    (0..escapes).for_each(|_| text.push_str(random.one_of(ESCAPES)));
    text.push('"');
    let stream = parsed(&text);
    note(&stream, noted);
    for tree in stream.trees() {
        let TokenTree::Literal(literal) = tree else { continue };
        ask_values(literal, noted);
        let value = literal.str_value().expect("the literal is a string");
        let Ok(again) = Literal::string(value.as_str());
        noted.shown(&again);
        let Ok(bytes) = Literal::byte_string(value.as_bytes());
        noted.shown(&bytes);
    }
}

fn floats(random: &mut Random, rows: u64, noted: &mut Noted) {
    let mut text = String::new();
    for _ in 0..rows {
        let (whole, part, power) = (random.below(1_000), random.next(), random.below(300));
        let row = format!("[{whole}.{part}, -0.{part}e{power}, {whole}., 1e-{power}f64, {part}],\n");
        text.push_str(&row);
    }
    noted.text(reprint(&text).expect("the text parses").as_str());
    note(&parsed(&text), noted);
}
