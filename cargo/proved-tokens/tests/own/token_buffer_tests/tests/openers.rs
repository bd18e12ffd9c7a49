// Made from crates/token_buffer_tests/src/tests/openers.rt by dev/erase: change that file, not this one.
//! Tests of the openers that `explain` returns.

use crate::shim::prelude::{AllocGlobal, Grow, GrowText, HostRuntime};

use crate::token_buffer_tests::tests::checks::check_answer;
use proved_tokens::explain::{ExplainError, Explained, Opener, explain};
use crate::shim::process::Abort;
use crate::test_helpers::release;

/// Asserts that the text doesn't parse, and that these bytes are the openers that no closer matches before the error,
/// the innermost last.
fn check(rt: &(impl Abort + AllocGlobal), text: &str, want: &str) {
    let explained = explain(text);
    let found = openers(rt, &explained);
    check_answer(rt, text, &found.as_str(), &want);
    release((explained, found));
}

/// The bytes of the openers that no closer matches before the text's error.
fn openers(
    rt: &impl Abort,
    explained: &Result<Option<Explained>, ExplainError>,
) -> String {
    match explained {
        Ok(Some(explained)) => opener_bytes(rt, explained),
        Ok(None) => String::from_str_fallibly("none").expect("none"),
        Err(_) => String::from_str_fallibly("memory").expect("memory"),
    }
}

/// The bytes of the openers in the explanation, the innermost last.
fn opener_bytes(rt: &impl Abort, explained: &Explained) -> String {
    let mut shown = String::new();
    for opener in explained.outer.iter() {
        add_opener(rt, &mut shown, opener);
        shown.push_fallibly(' ').expect("a text");
    }
    if let Some(opener) = &explained.innermost {
        add_opener(rt, &mut shown, opener);
    }
    shown
}

/// Appends the bytes of the opener.
fn add_opener(rt: &impl Abort, shown: &mut String, opener: &Opener) {
    let (start, end) = (opener.at.start, opener.at.end);
    assert!(write!(shown, "{start}..{end}").is_ok());
}

#[test]
fn openers_that_no_closer_matches() {
    let rt = HostRuntime;
    check(&rt, "(a", "0..1");
    check(&rt, "é([{", "2..3 3..4 4..5");
    check(&rt, "{ (x) [y }", "0..1 6..7");
    check(&rt, "[ () \"\\q\"", "0..1");
    check(&rt, "a )", "");
    check(&rt, "[a] ('b", "4..5");
}
