//! Names and literals.
use crate::calls::{repeat, Row};
use proc_macro2::{Ident, Literal, Span};
use std::hint::black_box;

const LONG_NAME: &str = "identifier_of_thirty_characters";
const LONG_TEXT: &str = "a text of some length, with \"quotes\"";

pub const ROWS: &[Row] = &[
    ("ident_new", |calls| repeat(calls, || ident(black_box("identifier")))),
    ("ident_new_one_letter", |calls| repeat(calls, || ident(black_box("x")))),
    ("ident_new_long", |calls| repeat(calls, || ident(black_box(LONG_NAME)))),
    ("ident_new_not_ascii", |calls| repeat(calls, || ident(black_box("größe")))),
    ("ident_new_raw", |calls| repeat(calls, || Ident::new_raw(black_box("type"), Span::call_site()))),
    ("ident_clone", |calls| {
        let name = ident("identifier");
        repeat(calls, || black_box(&name).clone());
    }),
    ("ident_clone_long", |calls| {
        let name = ident(LONG_NAME);
        repeat(calls, || black_box(&name).clone());
    }),
    ("ident_is_text", |calls| {
        let name = ident("identifier");
        repeat(calls, || black_box(&name) == "identifier");
    }),
    ("ident_is_other_text", |calls| {
        let name = ident("identifier");
        repeat(calls, || black_box(&name) == "struct");
    }),
    ("ident_is_unknown_text", |calls| {
        let name = ident("identifier");
        repeat(calls, || black_box(&name) == black_box("identifier"));
    }),
    ("ident_is_ident", |calls| {
        let (name, other) = (ident("identifier"), ident("identifier"));
        repeat(calls, || black_box(&name) == black_box(&other));
    }),
    ("ident_to_string", |calls| {
        let name = ident("identifier");
        repeat(calls, || black_box(&name).to_string());
    }),
    ("usize_unsuffixed", |calls| repeat(calls, || Literal::usize_unsuffixed(black_box(12345)))),
    ("u8_suffixed", |calls| repeat(calls, || Literal::u8_suffixed(black_box(200)))),
    ("i32_unsuffixed", |calls| repeat(calls, || Literal::i32_unsuffixed(black_box(-123)))),
    ("u64_suffixed", |calls| repeat(calls, || Literal::u64_suffixed(black_box(u64::MAX)))),
    ("u128_suffixed", |calls| repeat(calls, || Literal::u128_suffixed(black_box(u128::MAX)))),
    ("f64_unsuffixed", |calls| repeat(calls, || Literal::f64_unsuffixed(black_box(1.5)))),
    ("literal_character", |calls| repeat(calls, || Literal::character(black_box('c')))),
    ("literal_string", |calls| repeat(calls, || Literal::string(black_box("a text")))),
    ("literal_string_long", |calls| repeat(calls, || Literal::string(black_box(LONG_TEXT)))),
    ("literal_clone", |calls| {
        let text = Literal::string("a text");
        repeat(calls, || black_box(&text).clone());
    }),
    ("literal_clone_long", |calls| {
        let text = Literal::string(LONG_TEXT);
        repeat(calls, || black_box(&text).clone());
    }),
];

pub fn ident(name: &str) -> Ident {
    Ident::new(name, Span::call_site())
}
