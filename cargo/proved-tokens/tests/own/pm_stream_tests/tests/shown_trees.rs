// Made from crates/pm_stream_tests/src/tests/shown_trees.rt by dev/erase: change that file, not this one.

use crate::shim::prelude::{HostRuntime, format};

// Tests of how Debug shows streams and trees, and of what an empty stream prints.
use crate::pm_stream_tests::tests::built_streams::{empty_group, group_of, one};
use crate::pm_stream_tests::tests::checks::{check_answer, displays, has_no_width, parsed, shows};
use proved_tokens::proc_macro2::{Delimiter, Ident, Span, TokenStream, TokenTree};
use crate::shim::process::Abort;
use crate::test_helpers::release;

#[test]
fn an_empty_stream_is_printed_as_nothing() {
    let rt = HostRuntime;
    let made = TokenStream::new();
    displays(&rt, &made, "");
    shows(&rt, &made, "TokenStream []");
    release(made);
}

/// The stream of a raw identifier that is in no file.
fn raw_name(rt: &impl Abort, name: &str) -> TokenStream {
    let ident = Ident::new_raw(name, Span::call_site()).expect(name);
    one(TokenTree::Ident(ident)).expect(name)
}

#[test]
fn a_group_at_0_to_0_shows_no_span() {
    let rt = HostRuntime;
    let nothing = empty_group(Delimiter::None);
    shows(
        &rt,
        &nothing,
        "Group { delimiter: None, stream: TokenStream [] }",
    );
    let inside = raw_name(&rt, "ab");
    let parentheses = group_of(Delimiter::Parenthesis, inside, Span::call_site());
    shows(
        &rt,
        &parentheses,
        "Group { delimiter: Parenthesis, stream: TokenStream [Ident { sym: r#ab }] }",
    );
    release((nothing, parentheses));
}

/// How Debug shows the stream of the text in a new map, on several lines.
fn shown_on_lines(rt: &impl Abort, text: &str) -> String {
    let stream = parsed(rt, text);
    let shown = format!("{stream:#?}").expect(text);
    release(stream);
    shown
}

#[test]
fn a_stream_is_shown_on_lines() {
    let rt = HostRuntime;
    let shown = shown_on_lines(&rt, "r#fn(b'x')");
    let want = "TokenStream [
    Ident {
        sym: r#fn,
        span: bytes(1..5),
    },
    Group {
        delimiter: Parenthesis,
        stream: TokenStream [
            Literal {
                lit: b'x',
                span: bytes(6..10),
            },
        ],
        span: bytes(5..11),
    },
]";
    check_answer(&rt, "r#fn(b'x')", &shown.as_str(), &want);
}

/// Asserts that the trees of the text are displayed as these texts, whatever width the format has.
fn trees_have_no_width(rt: &impl Abort, text: &str, wanted: &[&str]) {
    let stream = parsed(rt, text);
    has_no_width(rt, &stream, text);
    for (tree, want) in stream.trees().iter().zip(wanted) {
        has_no_width(rt, tree, want);
    }
    release(stream);
}

#[test]
fn a_width_or_a_precision_changes_no_stream() {
    let rt = HostRuntime;
    let trees = &["r#ab", "1.5", "+", "(x)"];
    trees_have_no_width(&rt, "r#ab 1.5 + (x)", trees);
}
