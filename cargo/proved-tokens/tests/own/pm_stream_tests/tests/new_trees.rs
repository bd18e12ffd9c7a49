// Made from crates/pm_stream_tests/src/tests/new_trees.rt by dev/erase: change that file, not this one.

use crate::shim::prelude::HostRuntime;

// Tests of groups and trees that are made by hand.
use crate::pm_stream_tests::tests::checks::{displays, iterator_of, parsed, prints, shows};
use proved_tokens::proc_macro2::{Delimiter, Group, Ident, Literal, Punct, Spacing, Span, TokenStream, TokenTree};
use crate::shim::process::Abort;
use crate::test_helpers::release;

/// The group of the trees of the text.
fn group_of(rt: &impl Abort, delimiter: Delimiter, text: &str) -> Group {
    Group::new(delimiter, parsed(rt, text))
}

#[test]
fn a_new_group_stands_nowhere() {
    let rt = HostRuntime;
    let group = group_of(&rt, Delimiter::Brace, "x");
    displays(&rt, &group, "{ x }");
    let want =
        "Group { delimiter: Brace, stream: TokenStream [Ident { sym: x, span: bytes(1..2) }] }";
    shows(&rt, &group, want);
    release(group);
}

/// The stream of the group.
fn inside_of(rt: &impl Abort, group: &Group) -> TokenStream {
    group.stream().expect("the stream of a group")
}

/// Takes the first tree of a stream of the group, and drops it and the rest.
fn take_first(rt: &impl Abort, group: &Group) {
    let mut trees = iterator_of(inside_of(rt, group)).expect("an iterator");
    release(trees.next());
    release(trees);
}

#[test]
fn a_group_keeps_the_trees_of_its_stream() {
    let rt = HostRuntime;
    let group = group_of(&rt, Delimiter::Parenthesis, "x + y");
    take_first(&rt, &group);
    displays(&rt, &group, "(x + y)");
    prints(&rt, inside_of(&rt, &group), "x + y");
    release(group);
}

/// The raw identifier `r#fn`.
fn raw_fn(rt: &impl Abort) -> TokenTree {
    TokenTree::from(Ident::new_raw("fn", Span::call_site()).expect("r#fn"))
}

/// The literal `7u8`.
fn seven(rt: &impl Abort) -> TokenTree {
    TokenTree::from(Literal::u8_suffixed(7).expect("7u8"))
}

#[test]
fn each_kind_of_token_becomes_a_tree() {
    let rt = HostRuntime;
    let group = Group::new(Delimiter::Bracket, TokenStream::new());
    prints(&rt, TokenTree::from(group), "[]");
    prints(&rt, raw_fn(&rt), "r#fn");
    let punct = Punct::new('+', Spacing::Joint);
    prints(&rt, TokenTree::from(punct), "+");
    prints(&rt, seven(&rt), "7u8");
}
