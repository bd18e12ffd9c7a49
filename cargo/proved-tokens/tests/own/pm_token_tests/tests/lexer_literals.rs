// Made from crates/pm_token_tests/src/tests/lexer_literals.rt by dev/erase: change that file, not this one.

use crate::shim::prelude::HostRuntime;

use crate::pm_token_tests::tests::piece_checks::{check_literal_length, check_no_pieces, check_pieces};
use proved_tokens::lexical::PieceKind;
use crate::shim::process::Abort;

/// Asserts that each text begins with a literal, with this number of bytes and of characters.
fn check_literals(rt: &impl Abort, rows: &[(&str, usize, usize)]) {
    check_pieces(rt, PieceKind::Literal, rows);
    for &(text, bytes, _) in rows {
        check_literal_length(rt, text, Some(bytes));
    }
}

#[test]
fn a_literal_ends_after_its_suffix() {
    let rt = HostRuntime;
    check_literals(
        &rt,
        &[
            ("\"\"", 2, 2),
            ("\"\u{E9}\"\u{E9}+", 6, 4),
            ("\"a\"b\"x\"", 4, 4),
            ("\"a\"r#b", 4, 4),
            ("\"a\"\u{301}", 3, 3),
            ("\"\\\r\n    x\"", 10, 10),
            ("\"\r\n\\\n\\x7F\\u{10_FFFF}\\'\" ", 23, 23),
            ("b\"\\xFF\\0\"", 9, 9),
            ("c\"\u{E9}\\xFF\\u{1}\"", 14, 13),
            ("cr##\"Hello \"world\"!\"##", 22, 22),
            ("cr\"a\" b\0", 5, 5),
            ("r#\"\"#r", 6, 6),
            ("br\"\\\"\"", 5, 5),
            ("'\\u{10__FFFF}'", 14, 14),
            ("'\\''", 4, 4),
            ("' '", 3, 3),
            ("'\u{85}'", 4, 3),
            ("b'\\''x", 6, 6),
            ("b'\\xFF'u8", 9, 9),
        ],
    );
}

#[test]
fn no_literal_stands() {
    let rt = HostRuntime;
    check_no_pieces(
        &rt,
        &[
            "\"a",
            "\"\r\"",
            "\"\\\r\n  \rx\"",
            "\"\\a\"",
            "\"\\x80\"",
            "\"\\u{0000000}\"",
            "\"\\u{999999}\"",
            "\"\\u{D800}\"",
            "\"\\u{_0}\"",
            "\"\\u{}\"",
            "b\"\u{E9}\"",
            "b\"\\u{1}\"",
            "c\"\0\"",
            "c\"\\0\"",
            "c\"\\x00\"",
            "c\"\\u{0}\"",
            "br##\"\"#",
            "r\"\r\"",
            "br\"\u{E9}\"",
            "br\"a\u{E9}\"",
            "cr\"\0\"",
            "'''",
            "'\n'",
            "'\r'",
            "'\t'",
            "b'''",
            "b'\n'",
            "b'\r'",
            "b'\t'",
            "'\r\n'",
            "'\\\n'",
            "b'\u{86}'",
            "b'\\u{1}'",
        ],
    );
}

#[test]
fn the_error_literal_is_a_piece() {
    let rt = HostRuntime;
    check_pieces(&rt, PieceKind::Literal, &[("(/*ERROR*/)x", 11, 11)]);
    check_literal_length(&rt, "(/*ERROR*/)x", None);
}

#[test]
fn a_number_ends_after_its_suffix() {
    let rt = HostRuntime;
    check_literals(
        &rt,
        &[
            ("1.", 2, 2),
            ("1.f32", 1, 1),
            ("1._0", 1, 1),
            ("1..2", 1, 1),
            ("0.0", 3, 3),
            ("1_0_.5__e_+_6_f64 ", 17, 17),
            ("1.0e+-5", 4, 4),
            ("0E--0", 2, 2),
            ("0.0ECMA", 7, 7),
            ("999r#u256", 4, 4),
            ("0o0A", 4, 4),
            ("0x1e+5", 4, 4),
            ("0X1\u{E9}", 5, 4),
            ("0b1.0", 3, 3),
            ("1.5\u{301}", 1, 1),
            ("1e5\u{301}", 5, 4),
        ],
    );
}

#[test]
fn no_number_stands() {
    let rt = HostRuntime;
    check_no_pieces(
        &rt,
        &["0b12", "0x_", "0xg", "0b", "0o_8", "1\u{301}", "5\u{661}"],
    );
}
