//! Look-ups in source maps.
use crate::calls::{repeat, Row};
use proved_tokens::pm_span::parts::add_file;
use proved_tokens::proc_macro2::{SourceMap, Span, TokenStream};
use std::hint::black_box;

pub const ROWS: &[Row] = &[
    ("start_in_first_of_2_files", |calls| ask(&mut first_of(2), calls, |span, map| span.start(map))),
    ("end_in_first_of_2_files", |calls| ask(&mut first_of(2), calls, |span, map| span.end(map))),
    ("holds_in_first_of_2_files", |calls| ask(&mut first_of(2), calls, |span, map| map.holds(span))),
    ("join_in_first_of_2_files", |calls| ask(&mut first_of(2), calls, |span, map| span.join(span, map))),
    ("start_in_10_files", |calls| ask(&mut any_of(10), calls, |span, map| span.start(map))),
    ("end_in_10_files", |calls| ask(&mut any_of(10), calls, |span, map| span.end(map))),
    ("holds_in_10_files", |calls| ask(&mut any_of(10), calls, |span, map| map.holds(span))),
    ("join_in_10_files", |calls| ask(&mut any_of(10), calls, |span, map| span.join(span, map))),
    ("start_in_486_files", |calls| ask(&mut any_of(486), calls, |span, map| span.start(map))),
    ("end_in_486_files", |calls| ask(&mut any_of(486), calls, |span, map| span.end(map))),
    ("holds_in_486_files", |calls| ask(&mut any_of(486), calls, |span, map| map.holds(span))),
    ("join_in_486_files", |calls| ask(&mut any_of(486), calls, |span, map| span.join(span, map))),
    ("start_in_65_lines", |calls| ask(&mut in_lines(65), calls, |span, map| span.start(map))),
    ("end_in_100_lines", |calls| ask(&mut in_lines(100), calls, |span, map| span.end(map))),
    ("start_in_200_lines", |calls| ask(&mut in_lines(200), calls, |span, map| span.start(map))),
    ("byte_range_in_200_lines", |calls| ask(&mut in_lines(200), calls, |span, map| span.byte_range(map))),
    ("source_text_in_200_lines", |calls| ask(&mut in_lines(200), calls, |span, map| span.source_text(map))),
    ("byte_range_past_ascii", |calls| ask(&mut past_ascii(), calls, |span, map| span.byte_range(map))),
    ("fill_and_drop_map_of_10_files", |calls| {
        repeat(calls, || {
            let mut map = SourceMap::new();
            (0..10).for_each(|_| add_file(&mut map, black_box("fn f() {\n    g(1)\n}\n")).expect("there is memory"));
            map
        })
    }),
];

/// A map, and the spans that are asked, one after another and again from the first.
struct Asked {
    map: SourceMap,
    spans: Vec<Span>,
}

fn ask<T>(asked: &mut Asked, calls: u32, call: impl Fn(Span, &mut SourceMap) -> T) {
    let mut spans = asked.spans.iter().cycle();
    repeat(calls, || spans.next().map(|span| call(black_box(*span), black_box(&mut asked.map))));
}

/// The spans in another order, in which one seldom stands beside its neighbours.
fn mixed(spans: Vec<Span>) -> Vec<Span> {
    // A prime, so that each span has its turn.
    (0..spans.len()).map(|turn| spans[turn * 89 % spans.len()]).collect()
}

/// Adds a text to a map, and answers the spans of its trees outside of groups.
fn read(map: &mut SourceMap, text: &str) -> Vec<Span> {
    let stream = TokenStream::from_str(text, map).expect("the text parses");
    stream.trees().iter().map(|tree| tree.span()).collect()
}

/// A map of so many small files, of each of which one span is asked.
fn any_of(files: usize) -> Asked {
    let mut map = SourceMap::new();
    let spans = (0..files).map(|file| read(&mut map, &format!("fn f_{file}() {{\n    g({file})\n}}\n"))[1]).collect();
    Asked { map, spans: mixed(spans) }
}

/// A map of so many small files, of which a span in the first is asked.
fn first_of(files: usize) -> Asked {
    let mut asked = any_of(files);
    asked.spans.truncate(1);
    asked
}

/// A map of one file of so many short lines. All of its spans are asked.
fn in_lines(lines: usize) -> Asked {
    let mut map = SourceMap::new();
    let text: String = (0..lines).map(|line| format!("let x = {};\n", line % 10)).collect();
    let spans = read(&mut map, &text);
    Asked { map, spans: mixed(spans) }
}

/// A map of one file of 50 lines with characters past ASCII. All of its spans are asked.
fn past_ascii() -> Asked {
    let mut map = SourceMap::new();
    let spans = read(&mut map, &"let größe = \"naïve\"; // é\n".repeat(50));
    Asked { map, spans: mixed(spans) }
}
