//! The calls that take a text or a stream. What drops an answer is counted with the call.
use proved_tokens::declarations::{
    parse_file, split_any_item, split_attribute, split_attributes, split_bounds, split_expression,
    split_field, split_fields, split_generics, split_item, split_type, split_variants, split_where,
};
use proved_tokens::explain::{advice, explain};
use proved_tokens::layout::{text_with, Chooser, Gap, GapContext};
use proved_tokens::lexical::pieces;
use proved_tokens::literal_escaper::{unescape_byte_str, unescape_str};
use proved_tokens::pretty_printer::to_pretty_string;
use proved_tokens::proc_macro2::{place_trees, reprint, Ident, Literal, SourceMap, Span, TokenStream, TokenTree};
use proved_tokens::quoting::{Hole, Quote};
use proved_tokens::relayout::{relayout, with_any_doc_comments, with_doc_comments, White};
use proved_tokens::token_buffer::TokenBuffer;
use std::hint::black_box;
use std::sync::atomic::{AtomicUsize, Ordering};

/// How often something was counted.
pub static MADE: AtomicUsize = AtomicUsize::new(0);

/// Runs what is counted.
#[inline(never)]
fn measured<T>(call: impl FnOnce() -> T) -> T {
    MADE.fetch_add(1, Ordering::Relaxed);
    call()
}

/// Takes what is answered, and drops it.
fn keep<T>(answer: T) {
    drop(black_box(answer));
}

/// Counts a call, and what drops its answer.
fn count<T>(call: impl FnOnce() -> T) {
    measured(|| keep(call()));
}

/// Counts a call on the stream that the text is, if it is one.
fn on_stream(text: &str, call: impl FnOnce(&TokenStream)) {
    if let Ok(stream) = TokenStream::parse_unmapped(text) {
        measured(|| call(&stream));
    }
}

/// Counts a call on the stream of a text and on the map that it is in, if it is one.
fn on_map(text: &str, call: impl FnOnce(&TokenStream, &mut SourceMap)) {
    let mut map = SourceMap::new();
    if let Ok(stream) = TokenStream::from_str(text, &mut map) {
        measured(|| call(&stream, &mut map));
    }
}

/// Counts a call on all trees of the stream that the text is, groups entered.
fn on_spans(text: &str, mut call: impl FnMut(Span, &mut SourceMap)) {
    on_map(text, |stream, map| {
        let mut walk = stream.walk();
        while let Some(tree) = walk.next() {
            call(tree.span(), map);
        }
    });
}

/// Lines, spaces and nothing, by turns.
struct Turns(usize);

impl Chooser for Turns {
    fn gap(&mut self, place: GapContext<'_>) -> Gap {
        self.0 += 1;
        match self.0 % 4 {
            0 => Gap::Line(place.depth.min(20)),
            1 => Gap::Nothing,
            2 => Gap::Space,
            _ => Gap::Blank(0),
        }
    }
}

/// As many choices of white space as a text may take.
fn choices(text: &str) -> Vec<White> {
    let turns = [White::Kept, White::Space, White::Lines { tabs: 1, spaces: 2 }];
    (0..=text.len()).map(|at| turns[at % turns.len()]).collect()
}

/// Asks a splitter for one part after another. It answers what follows the part, or how many trees there is no part in:
/// these, at least one, are passed over, so that no tree is read again and again.
fn split<'a>(stream: &'a TokenStream, mut part: impl FnMut(&'a [TokenTree]) -> Result<&'a [TokenTree], usize>) {
    let mut trees = stream.trees();
    while !trees.is_empty() {
        trees = match part(trees) {
            Ok(rest) if rest.len() < trees.len() => rest,
            Ok(_) => &trees[1..],
            Err(passed) => &trees[passed.clamp(1, trees.len())..],
        };
    }
}

/// Asks about all that stands at the front of a stream.
fn fronts(stream: &TokenStream) {
    let trees = stream.trees();
    black_box(split_attributes(trees).is_ok());
    black_box(split_generics(trees).is_ok());
    black_box(split_where(trees).is_ok());
    black_box(split_bounds(trees).is_ok());
    black_box(split_type(trees).is_ok());
    black_box(split_expression(trees).is_ok());
    black_box(split_fields(trees).is_ok());
    black_box(split_variants(trees).is_ok());
    black_box(split_field(trees).is_ok());
    black_box(split_item(trees).is_ok());
}

/// Takes the items of a stream, and those in their bodies.
fn files(stream: &TokenStream) {
    let mut streams = vec![stream];
    while let Some(stream) = streams.pop() {
        if let Ok(file) = parse_file(stream.trees()) {
            black_box(file.items.count());
        }
        for tree in stream.trees() {
            if let TokenTree::Group(group) = tree {
                streams.push(group.stream_ref());
            }
        }
    }
}

/// A name of a call, and what makes it on a text.
type Call = (&'static str, fn(&str));

/// All calls.
pub const CALLS: &[Call] = &[
    ("from_str", |text| count(|| TokenStream::from_str(text, &mut SourceMap::new()))),
    ("parse_unmapped", |text| count(|| TokenStream::parse_unmapped(text))),
    ("to_string", |text| on_stream(text, |stream| keep(stream.to_string()))),
    ("debug", |text| on_stream(text, |stream| keep(format!("{stream:?}")))),
    ("reprint", |text| count(|| reprint(text))),
    ("place_trees", |text| count(|| place_trees(text))),
    ("pieces", |text| count(|| {
        let mut walk = pieces(text);
        while let Some(piece) = walk.next_piece() {
            black_box(piece.text);
        }
    })),
    ("token_buffer", |text| count(|| TokenBuffer::new(text).map(|buffer| {
        let mut cursor = buffer.begin();
        while let Some((token, after)) = cursor.next() {
            black_box(token);
            cursor = after;
        }
    }))),
    ("to_stream", |text| count(|| TokenBuffer::new(text).map(|buffer| buffer.begin().to_stream()))),
    ("skip_and_turbofish", |text| count(|| TokenBuffer::new(text).map(|buffer| {
        let mut cursor = buffer.begin();
        while let Some(after) = cursor.skip() {
            black_box(cursor.span());
            cursor = after;
        }
    }))),
    ("explain", |text| count(|| explain(text))),
    ("advice", |text| count(|| match explain(text) {
        Ok(Some(explained)) => black_box(advice(text, &explained)).is_ok(),
        _ => false,
    })),
    ("relayout", |text| {
        let choices = choices(text);
        count(|| relayout(text, &choices));
    }),
    ("with_doc_comments", |text| count(|| with_doc_comments(text))),
    ("with_any_doc_comments", |text| count(|| with_any_doc_comments(text))),
    ("to_pretty_string", |text| on_stream(text, |stream| keep(to_pretty_string(stream)))),
    ("text_with", |text| on_stream(text, |stream| keep(text_with(stream, &mut Turns(0))))),
    ("walk", |text| on_stream(text, |stream| {
        let mut walk = stream.walk();
        while let Some(tree) = walk.next() {
            black_box(tree);
        }
    })),
    ("steps", |text| on_stream(text, |stream| {
        let mut steps = stream.steps();
        while let Some(step) = steps.next() {
            black_box(step);
        }
    })),
    ("into_iter", |text| on_stream(text, |stream| {
        let copy = stream.clone();
        let trees = copy.into_iter();
        for tree in trees {
            black_box(tree);
        }
    })),
    ("is_well_spaced", |text| on_stream(text, |stream| keep(stream.is_well_spaced()))),
    ("same_tokens", |text| {
        let other = TokenStream::parse_unmapped(text);
        on_stream(text, |stream| keep(other.is_ok_and(|other| stream.same_tokens(&other))));
    }),
    ("extend", |text| on_stream(text, |stream| {
        let mut built = TokenStream::new();
        for tree in stream.trees() {
            let tree = tree.clone();
            let Ok(()) = built.extend_trees([tree]);
        }
        keep(built);
    })),
    ("start_and_end", |text| on_spans(text, |span, map| keep((span.start(map), span.end(map))))),
    ("byte_range", |text| on_spans(text, |span, map| keep(span.byte_range(map)))),
    ("source_str", |text| on_spans(text, |span, map| keep(span.source_str(map).map(str::len)))),
    ("join", |text| on_map(text, |stream, map| {
        let mut joined = Span::call_site();
        for tree in stream.trees() {
            joined = joined.join(tree.span(), map).unwrap_or(tree.span());
        }
        keep(joined);
    })),
    ("quote_parse", |text| count(|| {
        let one = TokenStream::parse_unmapped("one").expect("a name is a stream");
        let mut quote = Quote::new();
        quote.parse(text, &mut SourceMap::new(), &[Hole::one("a", &one), Hole::one("b", &one)])
    })),
    ("quote_fill", |text| on_stream(text, |stream| {
        let mut quote = Quote::new();
        let one = TokenStream::parse_unmapped("one").expect("a name is a stream");
        let streams = [TokenStream::new(), TokenStream::new()];
        let holes = [Hole::one("a", &one), Hole::each("b", &streams), Hole::one("m", &one)];
        keep(quote.fill(stream, &holes));
    })),
    ("quote_finish", |text| on_stream(text, |stream| {
        let mut quote = Quote::new();
        let copy = stream.clone();
        let Ok(()) = quote.push_stream(copy);
        keep(quote.finish());
    })),
    ("quote_push", |text| on_stream(text, |stream| {
        let mut quote = Quote::new();
        for tree in stream.trees() {
            let tree = tree.clone();
            let Ok(()) = quote.push(tree);
        }
        keep(quote.finish());
    })),
    ("parse_file", |text| on_stream(text, files)),
    ("fronts", |text| on_stream(text, fronts)),
    ("split_any_item", |text| on_stream(text, |stream| split(stream, |trees| {
        split_any_item(trees).map(|(_, rest)| rest).map_err(|fault| fault.at)
    }))),
    ("split_attribute", |text| on_stream(text, |stream| split(stream, |trees| {
        split_attribute(trees).map(|(_, rest)| rest).ok_or(1)
    }))),
    ("string", |text| count(|| Literal::string(text))),
    ("byte_string", |text| count(|| Literal::byte_string(text.as_bytes()))),
    ("str_value", |text| {
        let Ok(literal) = Literal::string(text);
        count(|| literal.str_value());
    }),
    ("literal_from_str", |text| count(|| Literal::from_str(text, &mut SourceMap::new()))),
    ("is_whole", |text| count(|| Literal::is_whole(text))),
    ("ident", |text| count(|| Ident::new(text, Span::call_site()))),
    ("unescape_str", |text| count(|| unescape_str(text).filter(|(_, unit)| unit.is_ok()).count())),
    ("unescape_byte_str", |text| count(|| unescape_byte_str(text).filter(|(_, unit)| unit.is_ok()).count())),
];
