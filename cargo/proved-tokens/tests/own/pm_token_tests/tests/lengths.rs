// Made from crates/pm_token_tests/src/tests/lengths.rt by dev/erase: change that file, not this one.

use crate::shim::prelude::{GrowText, HostRuntime, TryClone, format};

// A text of at most 22 bytes is kept in its token, and a longer one in memory. Both are kept unchanged and copied.
use crate::pm_token_tests::tests::checks::{check_answer, make_ident};
use proved_tokens::pm_token::{Ident, Literal};
use crate::shim::fmt::Display;
use crate::shim::process::Abort;
use crate::test_helpers::release;

/// Copies the identifier of the name.
fn copied_ident(rt: &impl Abort, name: &str, raw: bool) -> Ident {
    let ident = make_ident(name, raw).expect(name);
    let copy = ident.try_clone().expect(name);
    release(ident);
    copy
}

/// Copies the string literal of the text.
fn copied_literal(rt: &impl Abort, text: &str) -> Literal {
    let literal = Literal::string(text).expect(text);
    let copy = literal.try_clone().expect(text);
    release(literal);
    copy
}

/// Returns how the token is written, and drops it.
fn written<T: Display>(rt: &impl Abort, token: T) -> String {
    format!("{token}").expect("a text")
}

/// Asserts how a copy of the plain identifier of the name is written.
fn is_kept(rt: &impl Abort, name: &str) {
    let plain = written(rt, copied_ident(rt, name, false));
    check_answer(rt, name, &plain.as_str(), &name);
}

/// Asserts how a copy of the raw identifier of the name is written.
fn is_kept_raw(rt: &impl Abort, name: &str) {
    let raw = written(rt, copied_ident(rt, name, true));
    check_answer(rt, name, &raw.as_str().strip_prefix("r#"), &Some(name));
}

/// Asserts how a copy of the string literal of the text is written.
fn is_quoted(rt: &impl Abort, text: &str) {
    let quoted = written(rt, copied_literal(rt, text));
    let inside = quoted.as_str().strip_prefix('"').unwrap_or("");
    check_answer(rt, text, &inside.strip_suffix('"'), &Some(text));
}

/// Makes a text of 100,000 bytes.
fn long_text(rt: &impl Abort) -> String {
    let mut text = String::new();
    for _ in 0..10_000 {
        text.push_str_fallibly("abcdefghij").expect("a long text");
    }
    text
}

#[test]
fn a_name_of_any_length_is_kept() {
    let rt = HostRuntime;
    let names = &[
        "a",
        "abcdefghijklmnopqrstu",
        "abcdefghijklmnopqrstuv",
        "abcdefghijklmnopqrstuvw",
        "\u{E9}\u{E9}\u{E9}\u{E9}\u{E9}\u{E9}\u{E9}\u{E9}\u{E9}\u{E9}\u{E9}",
        "a\u{E9}\u{E9}\u{E9}\u{E9}\u{E9}\u{E9}\u{E9}\u{E9}\u{E9}\u{E9}\u{E9}",
    ];
    for name in names {
        is_kept(&rt, name);
        is_kept_raw(&rt, name);
    }
}

#[test]
fn a_literal_of_any_length_is_kept() {
    let rt = HostRuntime;
    for text in &["", "abcdefghijklmnopqrst", "abcdefghijklmnopqrstu"] {
        is_quoted(&rt, text);
    }
}

#[test]
fn a_text_of_100000_bytes_is_kept() {
    let rt = HostRuntime;
    let text = long_text(&rt);
    is_kept(&rt, text.as_str());
    is_kept_raw(&rt, text.as_str());
    is_quoted(&rt, text.as_str());
}
