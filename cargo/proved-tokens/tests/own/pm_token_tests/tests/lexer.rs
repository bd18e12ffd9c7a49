// Made from crates/pm_token_tests/src/tests/lexer.rt by dev/erase: change that file, not this one.

use crate::shim::prelude::HostRuntime;

use crate::pm_token_tests::tests::checks::check_answer;
use crate::pm_token_tests::tests::piece_checks::{check_no_pieces, check_piece, check_pieces};
use proved_tokens::lexical::{Piece, PieceKind, name_at, piece_at};
use crate::shim::process::Abort;

/// Asserts that each text begins with an identifier of this name, written with `r#` or not.
fn check_names(rt: &impl Abort, rows: &[(&str, bool, &str, usize, usize)]) {
    for &(text, raw, name, bytes, chars) in rows {
        let kind = PieceKind::Name { raw, name };
        check_piece(rt, text, Some(Piece { kind, bytes, chars }));
    }
}

#[test]
fn each_text_begins_with_its_piece() {
    let rt = HostRuntime;
    let gaps = &[(" a", 1, 1), ("\u{3000}", 3, 1), ("\u{200E}", 3, 1)];
    check_pieces(&rt, PieceKind::Gap, gaps);
    let openers = &[("(x", 1, 1), ("(/*ERROR*/", 1, 1)];
    check_pieces(&rt, PieceKind::Opener('('), openers);
    check_pieces(&rt, PieceKind::Closer('}'), &[("}", 1, 1)]);
    check_names(
        &rt,
        &[
            ("ab+", false, "ab", 2, 2),
            ("_1 ", false, "_1", 2, 2),
            ("\u{E9}", false, "\u{E9}", 2, 1),
            ("a\"", false, "a", 1, 1),
            ("r", false, "r", 1, 1),
            ("r#a", true, "a", 3, 3),
            ("r#dyn.", true, "dyn", 5, 5),
            ("r#\u{E9}1", true, "\u{E9}1", 5, 4),
            ("r#selfs", true, "selfs", 7, 7),
            ("r#b\"x\"", true, "b", 3, 3),
        ],
    );
}

/// Asserts that each text begins with this mark, joint or not.
fn check_marks(rt: &impl Abort, rows: &[(&str, char, bool)]) {
    for &(text, mark, joint) in rows {
        check_pieces(rt, PieceKind::Mark { joint, mark }, &[(text, 1, 1)]);
    }
}

#[test]
fn a_mark_is_joint_before_a_mark_that_begins_no_comment() {
    let rt = HostRuntime;
    check_marks(
        &rt,
        &[
            ("<<=", '<', true),
            ("+/**/-", '+', false),
            ("~// c", '~', false),
            ("+'a", '+', true),
            ("+'b'", '+', true),
            ("/", '/', false),
        ],
    );
}

#[test]
fn a_lone_quote_stands_before_an_identifier() {
    let rt = HostRuntime;
    check_pieces(
        &rt,
        PieceKind::Mark {
            joint: true,
            mark: '\'',
        },
        &[
            ("'a", 1, 1),
            ("'_", 1, 1),
            ("'static+", 1, 1),
            ("'r#gen", 1, 1),
            ("'r#prefix#lifetime", 1, 1),
            ("'b\"x\"", 1, 1),
            ("'\u{E9} '", 1, 1),
        ],
    );
}

/// Asserts that each text begins with a doc comment of this text, inner or not.
fn check_docs(rt: &impl Abort, rows: &[(&str, bool, &str, usize, usize)]) {
    for &(source, inner, text, bytes, chars) in rows {
        let kind = PieceKind::Doc { inner, text };
        check_piece(rt, source, Some(Piece { kind, bytes, chars }));
    }
}

#[test]
fn a_comment_is_a_gap_or_a_doc_comment() {
    let rt = HostRuntime;
    check_pieces(
        &rt,
        PieceKind::Gap,
        &[
            ("//x\ny", 3, 3),
            ("// \u{E9}\r\n", 6, 5),
            ("////", 4, 4),
            ("////\r", 5, 5),
            ("/**/", 4, 4),
            ("/***/x", 5, 5),
            ("/*** a\r*/", 9, 9),
            ("/* /**/ \u{E9}*/*/", 12, 11),
        ],
    );
    check_docs(
        &rt,
        &[
            ("/// d\r\n", false, " d", 6, 6),
            ("//! \u{E9}", true, " \u{E9}", 6, 5),
            ("/*!*/", true, "", 5, 5),
            ("/** \u{E9} */", false, " \u{E9} ", 9, 8),
            ("/**\r\n*/", false, "\r\n", 7, 7),
            ("/** /* */ */", false, " /* */ ", 12, 12),
        ],
    );
    check_no_pieces(&rt, &["///\r\r\n", "///\r \n", "///\r", "/** a\r*/"]);
}

#[test]
fn a_front_mark_stands_at_place_0() {
    let rt = HostRuntime;
    let mark = Piece {
        kind: PieceKind::FrontMark,
        bytes: 3,
        chars: 1,
    };
    let text = "\u{FEFF}a";
    check_answer(&rt, text, &piece_at(text, true), &Some(mark));
    check_piece(&rt, text, None);
}

#[test]
fn no_piece_stands() {
    let rt = HostRuntime;
    check_no_pieces(
        &rt,
        &[
            "",
            "b\"",
            "br#",
            "r##",
            "r#",
            "r#_",
            "r#1",
            "r#self",
            "r#Self",
            "r#super",
            "r#crate",
            "'",
            "' a",
            "'1",
            "'prefix#lifetime",
            "'aa'bb",
            "'r#gen'a",
            "'r#_",
            "'br#\"x\"#",
            "\"",
            "/*/",
            "/*/*/",
            "/* /* */ x",
            "\u{FEFF}",
            "\u{301}",
            "\\",
            "`",
        ],
    );
}

/// Asserts how many bytes the name at the start of the text has.
fn check_name(rt: &impl Abort, text: &str, bytes: Option<usize>) {
    check_answer(rt, text, &name_at(text), &bytes);
}

#[test]
fn a_name_is_the_longest() {
    let rt = HostRuntime;
    check_name(&rt, "ab1_\u{E9}+", Some(6));
    check_name(&rt, "r#a", Some(1));
    check_name(&rt, "1", None);
    check_name(&rt, "", None);
}
