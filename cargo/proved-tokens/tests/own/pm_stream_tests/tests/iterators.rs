// Made from crates/pm_stream_tests/src/tests/iterators.rt by dev/erase: change that file, not this one.

use crate::shim::prelude::{GrowText, HostRuntime, TryClone, format};

// Tests of the iterator that takes a stream apart.
use crate::pm_stream_tests::tests::built_streams::one;
use crate::pm_stream_tests::tests::checks::{
    check_answer, displays, iterator_of, parsed, prints, repeat_parts, shows,
};
use proved_tokens::proc_macro2::{TokenStream, TokenTree, token_stream};
use crate::shim::fmt::Display;
use crate::shim::process::Abort;
use crate::test_helpers::release;

/// The printed text of each tree that the iterator gives, in brackets.
fn bracketed_trees(rt: &impl Abort, trees: token_stream::IntoIter) -> String {
    let mut all = String::new();
    for tree in trees {
        add_bracketed(rt, &mut all, tree);
    }
    all
}

/// Appends the printed text of the value, in brackets.
fn add_bracketed<T: Display>(rt: &impl Abort, all: &mut String, value: T) {
    let text = format!("<{value}>").expect("a text");
    all.push_str_fallibly(text.as_str()).expect("a text");
}

/// The iterator over the trees of the stream.
fn trees_of(rt: &impl Abort, stream: TokenStream) -> token_stream::IntoIter {
    iterator_of(stream).expect("an iterator")
}

/// The iterator over the trees of the text.
fn trees_in(rt: &impl Abort, text: &str) -> token_stream::IntoIter {
    trees_of(rt, parsed(rt, text))
}

/// Drops the next tree of the iterator, if there is one.
fn skip(trees: &mut token_stream::IntoIter) {
    release(trees.next());
}

/// Asserts what the `size_hint` of the iterator is.
fn hints_at(rt: &impl Abort, trees: &token_stream::IntoIter, count: usize) {
    check_answer(rt, "size_hint", &trees.size_hint(), &(count, Some(count)));
}

/// Asserts whether the iterator gives another tree, and drops the tree.
fn has_next(rt: &impl Abort, trees: &mut token_stream::IntoIter, want: bool) {
    let next = trees.next();
    check_answer(rt, "the next tree", &next.is_some(), &want);
    release(next);
}

/// Asserts which trees the iterator gives.
fn gives(rt: &impl Abort, trees: token_stream::IntoIter, want: &str) {
    let all = bracketed_trees(rt, trees);
    check_answer(rt, want, &all.as_str(), &want);
}

#[test]
fn groups_are_given_whole() {
    let rt = HostRuntime;
    let trees = trees_in(&rt, "a b (c d) e");
    hints_at(&rt, &trees, 4);
    gives(&rt, trees, "<a><b><(c d)><e>");
    let none = trees_of(&rt, TokenStream::new());
    hints_at(&rt, &none, 0);
    gives(&rt, none, "");
}

#[test]
fn a_copy_of_a_half_used_iterator_gives_the_rest() {
    let rt = HostRuntime;
    let mut trees = trees_in(&rt, "a b (c d) e");
    skip(&mut trees);
    skip(&mut trees);
    let copy = trees.try_clone().expect("a copy");
    hints_at(&rt, &trees, 2);
    hints_at(&rt, &copy, 2);
    gives(&rt, trees, "<(c d)><e>");
    gives(&rt, copy, "<(c d)><e>");
}

/// The printed text of each tree of the stream, as a stream of that tree alone, in brackets. Each tree from the
/// iterator may be put into a stream again, which needs no proof here.
fn each_alone(rt: &impl Abort, stream: TokenStream) -> String {
    let mut all = String::new();
    for tree in trees_of(rt, stream) {
        let alone = one(tree).expect("a stream");
        add_bracketed(rt, &mut all, alone);
    }
    all
}

#[test]
fn each_tree_may_stand_in_another_stream() {
    let rt = HostRuntime;
    let stream = parsed(&rt, "a (b c) -1 'd \"\"");
    let all = each_alone(&rt, stream);
    let want = "<a><(b c)><-><1><'><d><\"\">";
    check_answer(&rt, want, &all.as_str(), &want);
}

#[test]
fn an_iterator_ends_again_after_its_end() {
    let rt = HostRuntime;
    let mut trees = trees_in(&rt, "a");
    has_next(&rt, &mut trees, true);
    has_next(&rt, &mut trees, false);
    has_next(&rt, &mut trees, false);
    release(trees);
}

#[test]
fn an_iterator_shows_the_trees_that_are_left() {
    let rt = HostRuntime;
    let mut trees = trees_in(&rt, "a (b) +");
    skip(&mut trees);
    shows(
        &rt,
        &trees,
        "TokenStream [Group { delimiter: Parenthesis, stream: TokenStream [\
         Ident { sym: b, span: bytes(4..5) }], span: bytes(3..6) }, \
         Punct { char: '+', spacing: Alone, span: bytes(7..8) }]",
    );
    skip(&mut trees);
    skip(&mut trees);
    shows(&rt, &trees, "TokenStream []");
    release(trees);
}

#[test]
fn a_shared_stream_keeps_what_the_other_gives() {
    let rt = HostRuntime;
    let stream = parsed(&rt, "a (b) +");
    let mut trees = trees_of(&rt, stream.try_clone().expect("a clone"));
    skip(&mut trees);
    displays(&rt, &stream, "a (b) +");
    gives(&rt, trees, "<(b)><+>");
    displays(&rt, &stream, "a (b) +");
    release(stream);
}

#[test]
fn an_iterator_over_deep_groups_is_dropped_in_little_stack() {
    let rt = HostRuntime;
    let text = repeat_parts(&rt, &[("[", 100_000), ("]", 100_000)]);
    let trees = trees_in(&rt, text.as_str());
    hints_at(&rt, &trees, 1);
    let mut given = trees_in(&rt, text.as_str());
    has_next(&rt, &mut given, true);
    release((trees, given));
}

/// The upper bound in an iterator's `size_hint`: none, or the greatest number. The lower bound is 0.
#[derive(Clone, Copy)]
enum Most {
    Unknown,
    Greatest,
}

/// An iterator over the trees of another one, with a `size_hint` that says little.
struct Hinting {
    trees: token_stream::IntoIter,
    most: Most,
}

impl Iterator for Hinting {
    type Item = TokenTree;

    fn next(&mut self) -> Option<TokenTree> {
        self.trees.next()
    }

    fn size_hint(&self) -> (usize, Option<usize>) {
        let _ = self.trees.size_hint();
        match self.most {
            Most::Unknown => (0, None),
            Most::Greatest => (0, Some(usize::MAX)),
        }
    }
}

/// Asserts what `x` is extended to by the trees of the text, from an iterator with this upper bound.
fn extends(rt: &impl Abort, text: &str, most: Most, want: &str) {
    let mut stream = parsed(rt, "x");
    let trees = trees_in(rt, text);
    stream
        .extend_trees(Hinting { trees, most })
        .expect(text);
    prints(rt, stream, want);
}

#[test]
fn what_an_iterator_hints_at_changes_nothing() {
    let rt = HostRuntime;
    for most in [Most::Unknown, Most::Greatest] {
        extends(&rt, "a (b) +", most, "x a (b) +");
        extends(&rt, "", most, "x");
    }
}
