//! What `to_pretty_string` answers of the streams of `crates/pretty_printer_tests/stdin`, compared with the record
//! beside it.
#![cfg(feature = "pretty_printer")]

#[allow(clippy::complexity, clippy::style, unreachable_code, unused_imports)]
mod pretty_printer_tests;
use std::fs;
use std::path::Path;

/// What is written of these rows, and how many of them are none.
fn written(lines: &str, whole: bool) -> (String, usize) {
    let mut out = Vec::new();
    let wrong = pretty_printer_tests::write_rows(lines, whole, &mut out).expect("a list is written to");
    (String::from_utf8(out).expect("a record is a text"), wrong)
}

#[test]
fn each_stream_is_written_as_recorded() {
    let crates = Path::new(env!("CARGO_MANIFEST_DIR")).join("../../crates/pretty_printer_tests");
    let streams = fs::read_to_string(crates.join("stdin")).expect("the streams are there");
    let record = fs::read_to_string(crates.join("stdout")).expect("the record is there");
    let (written, wrong) = written(&streams, false);
    assert_eq!(wrong, 0);
    // The first row that differs is told alone.
    for (here, recorded) in written.split("\n== ").zip(record.split("\n== ")) {
        assert_eq!(here, recorded);
    }
    assert_eq!(written.len(), record.len());
}

#[test]
fn a_row_is_written_whole_or_as_a_digest() {
    let (text, wrong) = written("digest a+b\ntext +\n?", false);
    assert!(text.ends_with("== 1 1776586334357343759\n== 2\n+\n== 3 is no row\n"), "{text}");
    assert_eq!(wrong, 1);
    let (text, _) = written("digest +\njoint :;", true);
    assert!(text.ends_with("== 1\n+\n== 2\n:;\n"), "{text}");
}
