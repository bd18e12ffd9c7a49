// Made from crates/pm_token_tests/src/tests/shown_parts.rt by dev/erase: change that file, not this one.

use crate::shim::prelude::{HostRuntime, format};

// The `Debug` texts of the parts of tokens, and of tokens without a span.
use crate::pm_token_tests::tests::checks::{are_shown, check_answer, made_shows, read_literal, shows};
use proved_tokens::pm_span::parts::span_of;
use proved_tokens::pm_span::{LineColumn, SourceMap, Span};
use proved_tokens::pm_token::parts::punct;
use proved_tokens::pm_token::{Delimiter, Ident, Literal, Spacing};
use crate::shim::alloc::AllocError;
use crate::shim::process::Abort;
use crate::test_helpers::release;

#[test]
fn a_delimiter_shows_its_name() {
    let rt = HostRuntime;
    let rows = &[
        (Delimiter::Parenthesis, "Parenthesis"),
        (Delimiter::Brace, "Brace"),
        (Delimiter::Bracket, "Bracket"),
        (Delimiter::None, "None"),
    ];
    are_shown(&rt, rows);
}

#[test]
fn a_spacing_shows_its_name() {
    let rt = HostRuntime;
    let rows = &[(Spacing::Alone, "Alone"), (Spacing::Joint, "Joint")];
    are_shown(&rt, rows);
}

/// Asserts the `Debug` text of the raw identifier with the name.
fn raw_shows(rt: &impl Abort, name: &str, span: Span, want: &str) {
    made_shows(rt, Ident::new_raw(name, span), want);
}

#[test]
fn a_raw_identifier_shows_its_front() {
    let rt = HostRuntime;
    let nowhere = Span::call_site();
    raw_shows(&rt, "ab", nowhere, "Ident { sym: r#ab }");
    let want = "Ident { sym: r#fn, span: bytes(34..38) }";
    raw_shows(&rt, "fn", span_of(34, 38), want);
}

#[test]
fn a_mark_without_a_place_shows_no_span() {
    let rt = HostRuntime;
    let nowhere = Span::call_site();
    let rows = [
        (
            punct('#', Spacing::Alone, nowhere),
            "Punct { char: '#', spacing: Alone }",
        ),
        (
            punct('\'', Spacing::Joint, nowhere),
            "Punct { char: '\\'', spacing: Joint }",
        ),
        (
            punct('+', Spacing::Alone, span_of(0, 1)),
            "Punct { char: '+', spacing: Alone, span: bytes(0..1) }",
        ),
    ];
    are_shown(&rt, &rows);
}

/// Asserts the `Debug` text of the literal that is read from the text.
fn read_shows(rt: &impl Abort, text: &str, want: &str) {
    made_shows(rt, read_literal(text), want);
}

#[test]
fn a_literal_shows_its_text_as_it_is_written() {
    let rt = HostRuntime;
    made_shows(
        &rt,
        Literal::string("a\n"),
        "Literal { lit: \"a\\n\" }",
    );
    made_shows(
        &rt,
        Literal::i8_suffixed(-1),
        "Literal { lit: -1i8 }",
    );
    read_shows(
        &rt,
        "b'x'",
        "Literal { lit: b'x', span: bytes(1..5) }",
    );
    read_shows(
        &rt,
        "-1u12",
        "Literal { lit: -1u12, span: bytes(1..6) }",
    );
}

#[test]
fn a_place_shows_its_line_and_column() {
    let rt = HostRuntime;
    let value = LineColumn { line: 3, column: 0 };
    shows(&rt, &value, "LineColumn { line: 3, column: 0 }");
}

/// Returns the `Debug` text of a map of these texts, with the limit 100.
fn map_shown(texts: &[&str]) -> Result<String, AllocError> {
    let mut map = SourceMap::with_limit(100);
    for text in texts {
        release(Literal::from_str(text, &mut map));
    }
    let shown: Result<_, _> = format!("{map:?}");
    release(map);
    shown
}

/// Asserts that the text has each of these parts.
fn has_parts(rt: &impl Abort, text: &str, parts: &[&str]) {
    for part in parts {
        check_answer(rt, part, &(text, text.contains(*part)), &(text, true));
    }
}

#[test]
fn a_map_shows_its_texts_and_its_limit() {
    let rt = HostRuntime;
    let texts = &["1", "\"a\n\"", "x y"];
    let shown = map_shown(texts).expect("a map");
    let parts = [
        "SourceMap {",
        "\"1\"",
        "\"\\\"a\\n\\\"\"",
        "\"x y\"",
        "limit: 100",
    ];
    has_parts(&rt, shown.as_str(), &parts);
    let again = map_shown(texts).expect("a map");
    check_answer(&rt, "the same texts", &again.as_str(), &shown.as_str());
}
