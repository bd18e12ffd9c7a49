// Made from crates/pm_token_tests/src/tests/walk.rt by dev/erase: change that file, not this one.

use crate::shim::prelude::HostRuntime;

use crate::pm_token_tests::tests::checks::check_answer;
use proved_tokens::lexical::{PieceKind, PieceWalk, pieces};
use crate::shim::process::Abort;

/// Asserts that the text has pieces of these kinds and texts, one directly after another, the first at byte 0.
/// After them each call returns no piece, and this is the rest.
fn check_walk(rt: &impl Abort, text: &str, rows: &[(PieceKind<'_>, &str)], rest: &str) {
    let mut walk = pieces(text);
    let mut byte_offset: usize = 0;
    for &(kind, text) in rows {
        check_next(rt, &mut walk, Some((byte_offset, kind, text)));
        byte_offset = byte_offset.wrapping_add(text.len());
    }
    for _ in 0..2 {
        check_next(rt, &mut walk, None);
    }
    check_answer(rt, text, &walk.rest(), &rest);
}

/// Asserts the byte offset, the kind and the text of the next piece.
fn check_next(
    rt: &impl Abort,
    walk: &mut PieceWalk<'_>,
    want: Option<(usize, PieceKind<'_>, &str)>,
) {
    let answer = match walk.next_piece() {
        Some(next) => Some((next.byte_offset, next.piece.kind, next.text)),
        None => None,
    };
    check_answer(rt, "the next piece", &answer, &want);
}

/// Returns the kind of a mark.
fn mark_of(mark: char, joint: bool) -> PieceKind<'static> {
    PieceKind::Mark { joint, mark }
}

#[test]
fn the_pieces_cover_the_text() {
    let rt = HostRuntime;
    let text = "\u{FEFF}r#a+=/*\u{E9}*/\"\u{E9}\"u8\n(/// d\n)// c";
    check_walk(
        &rt,
        text,
        &[
            (PieceKind::FrontMark, "\u{FEFF}"),
            (
                PieceKind::Name {
                    raw: true,
                    name: "a",
                },
                "r#a",
            ),
            (mark_of('+', true), "+"),
            (mark_of('=', false), "="),
            (PieceKind::Gap, "/*\u{E9}*/"),
            (PieceKind::Literal, "\"\u{E9}\"u8"),
            (PieceKind::Gap, "\n"),
            (PieceKind::Opener('('), "("),
            (
                PieceKind::Doc {
                    inner: false,
                    text: " d",
                },
                "/// d",
            ),
            (PieceKind::Gap, "\n"),
            (PieceKind::Closer(')'), ")"),
            (PieceKind::Gap, "// c"),
        ],
        "",
    );
}

#[test]
fn the_pieces_end_at_a_fault() {
    let rt = HostRuntime;
    check_walk(
        &rt,
        "+ \"a",
        &[(mark_of('+', false), "+"), (PieceKind::Gap, " ")],
        "\"a",
    );
    // U+FEFF is a piece only at the start of a text.
    check_walk(&rt, " \u{FEFF}", &[(PieceKind::Gap, " ")], "\u{FEFF}");
    // A NUL, which a C string can't contain, is no error after the end of one.
    let rows = &[(PieceKind::Literal, "cr\"a\"")];
    check_walk(&rt, "cr\"a\"\0", rows, "\0");
}

#[test]
fn an_empty_text_has_no_pieces() {
    let rt = HostRuntime;
    check_walk(&rt, "", &[], "");
}

/// Asserts the white characters that come next, the piece after them, and the text after that.
fn check_spaced(
    rt: &impl Abort,
    walk: &mut PieceWalk<'_>,
    white: &str,
    want: Option<(usize, PieceKind<'_>)>,
    rest: &str,
) {
    let next = walk.next_after_white();
    let piece = match next.piece {
        Some(piece) => Some((piece.byte_offset, piece.piece.kind)),
        None => None,
    };
    let answer = (next.white, piece, next.rest);
    check_answer(rt, "the next piece", &answer, &(white, want, rest));
}

#[test]
fn white_characters_past_ascii_are_passed_too() {
    let rt = HostRuntime;
    let mut walk = pieces("\t\u{2028}     +// b\n\u{85}\u{E9}\u{A0}\"");
    let plus = mark_of('+', false);
    let name = PieceKind::Name {
        raw: false,
        name: "\u{E9}",
    };
    check_spaced(
        &rt,
        &mut walk,
        "\t\u{2028}     ",
        Some((9, plus)),
        "+// b\n\u{85}\u{E9}\u{A0}\"",
    );
    check_spaced(
        &rt,
        &mut walk,
        "",
        Some((10, PieceKind::Gap)),
        "// b\n\u{85}\u{E9}\u{A0}\"",
    );
    check_spaced(
        &rt,
        &mut walk,
        "\n\u{85}",
        Some((17, name)),
        "\u{E9}\u{A0}\"",
    );
    check_spaced(&rt, &mut walk, "\u{A0}", None, "\"");
    check_spaced(&rt, &mut walk, "", None, "\"");
}

#[test]
fn a_front_mark_stands_before_white_characters_alone() {
    let rt = HostRuntime;
    let mut walk = pieces("\u{FEFF} ");
    check_spaced(
        &rt,
        &mut walk,
        "",
        Some((0, PieceKind::FrontMark)),
        "\u{FEFF} ",
    );
    check_spaced(&rt, &mut walk, " ", None, "");
    check_spaced(&rt, &mut pieces(" \u{FEFF}"), " ", None, "\u{FEFF}");
}
