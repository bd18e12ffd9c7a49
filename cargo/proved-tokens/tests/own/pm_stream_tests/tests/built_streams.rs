// Made from crates/pm_stream_tests/src/tests/built_streams.rt by dev/erase: change that file, not this one.

use crate::shim::prelude::{HostRuntime, format, vec};

// Tests of streams that no text parses to: with groups without delimiters, or trees that are in no file.

use crate::pm_stream_tests::tests::checks::{check_answer, display_text, prints, shows};
use proved_tokens::pm_span::Span;
use proved_tokens::pm_span::parts::span_of;
use proved_tokens::pm_stream::parts::{group, stream};
use proved_tokens::pm_stream::{TokenStream, TokenTree};
use proved_tokens::pm_token::parts::{ident, punct};
use proved_tokens::pm_token::{Delimiter, Spacing};
use crate::shim::alloc::AllocError;
use crate::shim::process::Abort;
use crate::test_helpers::release;

fn name(span: Span) -> Result<TokenTree, AllocError>
{
    Ok(TokenTree::Ident(ident("_", false, span)?))
}

fn plus(spacing: Spacing) -> TokenTree
{
    TokenTree::Punct(punct('+', spacing, Span::call_site()))
}

/// The group of this stream, with this span.
pub fn group_of(delimiter: Delimiter, stream: TokenStream, span: Span) -> TokenTree
{
    TokenTree::Group(group(delimiter, stream, span))
}

/// The stream of this tree alone.
pub fn one(tree: TokenTree) -> Result<TokenStream, AllocError>
{
    let _ = tree.span();
    stream(vec![tree]?)
}

fn three(
    first: TokenTree,
    second: TokenTree,
    third: TokenTree,
) -> Result<TokenStream, AllocError>
{
    let _ = first.span();
    let _ = second.span();
    let _ = third.span();
    stream(vec![first, second, third]?)
}

/// The group without trees, which is in no file.
pub fn empty_group(delimiter: Delimiter) -> TokenTree
{
    group_of(delimiter, TokenStream::new(), Span::call_site())
}

fn name_between(delimiter: Delimiter) -> Result<TokenTree, AllocError> {
    let inside = one(name(Span::call_site())?)?;
    Ok(group_of(delimiter, inside, Span::call_site()))
}

/// Asserts what a group is printed as when it is empty, and when it has a name in it.
fn check_delimiter(rt: &impl Abort, delimiter: Delimiter, empty: &str, full: &str) {
    prints(rt, empty_group(delimiter), empty);
    let group = name_between(delimiter).expect(full);
    prints(rt, group, full);
}

#[test]
fn a_group_is_printed_by_its_delimiter() {
    let rt = HostRuntime;
    check_delimiter(&rt, Delimiter::Parenthesis, "()", "(_)");
    check_delimiter(&rt, Delimiter::Brace, "{ }", "{ _ }");
    check_delimiter(&rt, Delimiter::Bracket, "[]", "[_]");
    check_delimiter(&rt, Delimiter::None, "", "_");
}

fn name_in_parentheses() -> Result<TokenStream, AllocError> {
    let inside = one(name(span_of(2, 3))?)?;
    one(
        group_of(Delimiter::Parenthesis, inside, span_of(1, 4)),
    )
}

#[test]
fn trees_are_shown_with_their_spans() {
    let rt = HostRuntime;
    let stream = name_in_parentheses().expect("(_)");
    let want = "TokenStream [Group { delimiter: Parenthesis, stream: TokenStream [\
        Ident { sym: _, span: bytes(2..3) }], span: bytes(1..4) }]";
    shows(&rt, &stream, want);
    release(stream);
}

#[test]
fn a_mark_with_no_span_is_shown_on_lines() {
    let rt = HostRuntime;
    let stream = one(plus(Spacing::Alone)).expect("+");
    let shown = format!("{stream:#?}").expect("+");
    let want = "TokenStream [\n    Punct {\n        char: '+',\n        spacing: Alone,\n    },\n]";
    check_answer(&rt, "+", &shown.as_str(), &want);
    release(stream);
}

/// Bracket groups inside one another, `levels` deep, with marks before and after each.
fn deep(levels: u32) -> Result<TokenStream, AllocError> {
    let mut stream = TokenStream::new();
    for _ in 0..levels {
        let deep = group_of(Delimiter::Bracket, stream, Span::call_site());
        stream = three(plus(Spacing::Joint), deep, plus(Spacing::Joint))?;
    }
    Ok(stream)
}

#[test]
fn groups_nest_deep_without_stack() {
    let rt = HostRuntime;
    let stream = deep(300000).expect("deep groups");
    let printed = display_text(&rt, &stream);
    let row = "each level is `+[] +`";
    check_answer(&rt, row, &printed.as_str().len(), &(5 * 300000));
    release(stream);
}
