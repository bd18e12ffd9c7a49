//! Reading pieces of one kind, and short texts.
use crate::calls::{repeat, Row};
use proved_tokens::proc_macro2::{pieces, Ident, Literal, Span, TokenStream};
use std::hint::black_box;

const DIGITS: &str = "1234567890123456789012345678901234567890123456789012345678901234567890.5 ";
const LINE: &str = "pub fn f<'a>(x: &'a str) -> Vec<u8> { x.bytes().map(|b| b + 1).collect() }";

pub const ROWS: &[Row] = &[
    ("name", |calls| walk(calls, "alpha ")),
    ("name_past_ascii", |calls| walk(calls, "größe ")),
    ("lifetime", |calls| walk(calls, "'a ")),
    ("mark", |calls| walk(calls, ":: ")),
    ("string_of_1_letter", |calls| walk(calls, "\"a\" ")),
    ("string_of_38_letters", |calls| walk(calls, "\"abcdefghijklmnopqrstuvwxyzabcdefghijkl\" ")),
    ("string_with_escape", |calls| walk(calls, "\"a\\n\" ")),
    ("character", |calls| walk(calls, "'x' ")),
    ("character_escaped", |calls| walk(calls, "'\\n' ")),
    ("byte_string", |calls| walk(calls, "b\"ab\\xff\" ")),
    ("raw_string", |calls| walk(calls, "r#\"a raw \"text\"\"# ")),
    ("integer", |calls| walk(calls, "12 ")),
    ("integer_suffixed", |calls| walk(calls, "1u8 ")),
    ("integer_other_suffix", |calls| walk(calls, "1ms ")),
    ("integer_base_16", |calls| walk(calls, "0xff ")),
    ("integer_base_16_underscore", |calls| walk(calls, "0x_f ")),
    ("integer_base_2_underscore", |calls| walk(calls, "0b_1 ")),
    ("float", |calls| walk(calls, "1.5 ")),
    ("float_exponent", |calls| walk(calls, "1.5e3 ")),
    ("float_exponent_underscore", |calls| walk(calls, "1E_5 ")),
    ("float_suffixed", |calls| walk(calls, "1.5f64 ")),
    ("float_of_70_digits", |calls| walk(calls, DIGITS)),
    ("comment", |calls| walk(calls, "// a comment of some words\n")),
    ("doc_comment", |calls| walk(calls, "/// A comment of some words\n")),
    ("doc_comment_past_ascii", |calls| walk(calls, "/// 名前は長いので読むのに時間がかかる\n")),
    ("parse_names", |calls| parse(calls, "alpha beta gamma delta")),
    ("parse_line", |calls| parse(calls, LINE)),
    ("print_line", |calls| {
        let stream = TokenStream::parse_unmapped(LINE).expect("the text parses");
        repeat(calls, || black_box(&stream).to_string());
    }),
    ("ident_new", |calls| repeat(calls, || Ident::new(black_box("identifier"), Span::call_site()))),
    ("literal_string", |calls| repeat(calls, || Literal::string(black_box("a text")))),
];

/// Reads all pieces of a text.
fn walk(calls: u32, text: &str) {
    repeat(calls, || {
        let mut walk = pieces(black_box(text));
        while let Some(next) = walk.next_piece() {
            black_box(next);
        }
        walk.rest().len()
    });
}

/// Reads a text into trees.
fn parse(calls: u32, text: &str) {
    repeat(calls, || TokenStream::parse_unmapped(black_box(text)));
}
