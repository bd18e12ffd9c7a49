// Made from crates/pm_stream_tests/src/tests/building.rt by dev/erase: change that file, not this one.

use crate::shim::prelude::{Collect, Grow, HostRuntime, TryClone, TryExtend};

// Tests of streams that are built from trees, other streams and tokens.
use crate::pm_stream_tests::tests::checks::{check_answer, displays, parsed, prints, shows};
use proved_tokens::pm_span::parts::span_of;
use proved_tokens::pm_stream::parts::group;
use proved_tokens::pm_token::parts::punct;
use proved_tokens::proc_macro2::{Delimiter, Group, Ident, Literal, Spacing, Span, TokenStream, TokenTree};
use crate::shim::process::Abort;
use crate::test_helpers::release;

/// The identifier `x`, which is in no file.
fn x(rt: &impl Abort) -> Ident {
    Ident::new("x", Span::call_site()).expect("x")
}

/// The stream of `x` alone.
fn only_x(rt: &impl Abort) -> TokenStream {
    TokenStream::from_tree(TokenTree::Ident(x(rt))).expect("x")
}

/// The group of this stream, which is in no file.
fn group_of(delimiter: Delimiter, stream: TokenStream) -> Group {
    group(delimiter, stream, Span::call_site())
}

/// The literal `-3i32` at 1..6.
fn minus_three(rt: &impl Abort) -> Literal {
    let mut literal = Literal::i32_suffixed(-3).expect("-3i32");
    literal.set_span(span_of(1, 6));
    literal
}

/// The stream of `-3i32` alone.
fn only_minus_three(rt: &impl Abort) -> TokenStream {
    TokenStream::from_tree(TokenTree::Literal(minus_three(rt))).expect("-3i32")
}

/// Asserts what the stream prints, and how Debug shows it.
fn is_seen(rt: &impl Abort, stream: TokenStream, printed: &str, shown: &str) {
    displays(rt, &stream, printed);
    shows(rt, &stream, shown);
    release(stream);
}

#[test]
fn a_negative_literal_is_put_in_as_its_sign_and_the_rest() {
    let rt = HostRuntime;
    let want = "TokenStream [Punct { char: '-', spacing: Alone, span: bytes(1..6) }, \
        Literal { lit: 3i32, span: bytes(1..6) }]";
    is_seen(
        &rt,
        only_minus_three(&rt),
        "- 3i32",
        want,
    );
}

#[test]
fn a_mark_keeps_its_spacing() {
    let rt = HostRuntime;
    let colon = TokenTree::Punct(punct(':', Spacing::Joint, Span::call_site()));
    let stream = TokenStream::from_tree(colon).expect(":");
    let want = "TokenStream [Punct { char: ':', spacing: Joint }]";
    is_seen(&rt, stream, ":", want);
}

/// An empty group in braces, and one of `x` for each delimiter.
fn groups(rt: &impl Abort) -> Vec<Group> {
    let mut groups = Vec::new();
    let empty = group_of(Delimiter::Brace, TokenStream::new());
    groups.push_fallibly(empty).expect("a group");
    for &delimiter in &[
        Delimiter::Brace,
        Delimiter::Parenthesis,
        Delimiter::Bracket,
        Delimiter::None,
    ] {
        let group = group_of(delimiter, only_x(rt));
        groups.push_fallibly(group).expect("a group");
    }
    groups
}

#[test]
fn groups_are_put_after_one_another() {
    let rt = HostRuntime;
    let mut stream = TokenStream::new();
    let groups = groups(&rt);
    stream.extend_groups(groups).expect("the groups");
    prints(&rt, stream, "{ } { x } (x) [x] x");
}

fn add_identifiers(rt: &impl Abort, stream: &mut TokenStream) {
    let two = [x(rt), x(rt)];
    stream.extend_idents(two).expect("x x");
}

fn add_marks(rt: &impl Abort, stream: &mut TokenStream) {
    let two = [
        punct('+', Spacing::Joint, Span::call_site()),
        punct('=', Spacing::Alone, Span::call_site()),
    ];
    stream.extend_puncts(two).expect("+=");
}

fn add_literals(rt: &impl Abort, stream: &mut TokenStream) {
    let one = Literal::u8_unsuffixed(1).expect("1");
    let two = [minus_three(rt), one];
    stream.extend_literals(two).expect("-3i32 1");
}

fn add_trees(rt: &impl Abort, stream: &mut TokenStream) {
    let plus = TokenTree::Punct(punct('+', Spacing::Alone, Span::call_site()));
    let two = [plus, TokenTree::Literal(minus_three(rt))];
    stream.extend_trees(two).expect("+ -3i32");
}

#[test]
fn tokens_of_each_kind_are_put_in() {
    let rt = HostRuntime;
    let mut stream = TokenStream::new();
    add_identifiers(&rt, &mut stream);
    add_marks(&rt, &mut stream);
    add_literals(&rt, &mut stream);
    add_trees(&rt, &mut stream);
    prints(&rt, stream, "x x += - 3i32 1 + - 3i32");
}

/// A clone of the stream.
fn copy_of(rt: &impl Abort, stream: &TokenStream) -> TokenStream {
    stream.try_clone().expect("a clone")
}

/// The stream of an empty stream, of the other stream, and of `-3i32`.
fn three_streams(rt: &impl Abort, other: &TokenStream) -> TokenStream {
    let again = copy_of(rt, other);
    let minus = only_minus_three(rt);
    let nothing = TokenStream::new();
    TokenStream::from_streams([nothing, again, minus]).expect("three")
}

/// Appends the trees of the other stream twice.
fn add_twice(rt: &impl Abort, stream: &mut TokenStream, other: &TokenStream) {
    let two = [copy_of(rt, other), copy_of(rt, other)];
    stream.extend_streams(two).expect("two streams");
}

#[test]
fn streams_are_put_after_one_another() {
    let rt = HostRuntime;
    let x = only_x(&rt);
    let mut stream = three_streams(&rt, &x);
    add_twice(&rt, &mut stream, &x);
    prints(&rt, stream, "x - 3i32 x x");
    prints(&rt, x, "x");
}

#[test]
fn a_stream_that_is_extended_leaves_its_clone() {
    let rt = HostRuntime;
    let mut stream = only_x(&rt);
    let kept = copy_of(&rt, &stream);
    stream.extend_idents([x(&rt)]).expect("x");
    prints(&rt, stream, "x x");
    prints(&rt, kept, "x");
}

#[test]
fn a_stream_is_extended_by_its_own_clone() {
    let rt = HostRuntime;
    let mut stream = parsed(&rt, "a +");
    let kept = copy_of(&rt, &stream);
    let again = copy_of(&rt, &kept);
    stream.extend_streams([again]).expect("a +");
    prints(&rt, stream, "a + a +");
    prints(&rt, kept, "a +");
}

/// The stream of the group.
fn inside_of(rt: &impl Abort, group: &Group) -> TokenStream {
    group.stream().expect("the stream of a group")
}

/// A clone of the group.
fn copy_of_group(rt: &impl Abort, group: &Group) -> Group {
    group.try_clone().expect("a clone")
}

#[test]
fn a_stream_of_a_group_that_is_extended_leaves_the_group() {
    let rt = HostRuntime;
    let group = group_of(Delimiter::Parenthesis, only_x(&rt));
    let mut inside = inside_of(&rt, &group);
    let again = copy_of_group(&rt, &group);
    inside.extend_groups([again]).expect("(x)");
    prints(&rt, inside, "x (x)");
    prints(&rt, inside_of(&rt, &group), "x");
    release(group);
}

/// The trees `x` and `-3i32`.
fn two_trees(rt: &impl Abort) -> Vec<TokenTree> {
    let mut trees = Vec::new();
    trees.push_fallibly(TokenTree::Ident(x(rt))).expect("x");
    let minus = TokenTree::Literal(minus_three(rt));
    trees.push_fallibly(minus).expect("-3i32");
    trees
}

/// The stream of the trees `x` and `-3i32`, as std collects it.
fn collect_trees(rt: &impl Abort) -> TokenStream {
    let stream: Result<TokenStream, _> = two_trees(rt).into_iter().collected();
    stream.expect("a stream")
}

/// The stream of the trees `x` and `-3i32` twice, as std collects it.
fn collect_twice(rt: &impl Abort) -> TokenStream {
    let stream = collect_trees(rt);
    let mut streams = Vec::new();
    streams.push_fallibly(copy_of(rt, &stream)).expect("a stream");
    streams.push_fallibly(stream).expect("a stream");
    let both: Result<TokenStream, _> = streams.into_iter().collected();
    both.expect("both streams")
}

/// Extends the stream by a tree, a stream and a token of each kind.
fn extend_by_each(rt: &impl Abort, stream: &mut TokenStream) {
    let tree = TokenTree::Ident(x(rt));
    stream.try_extend([tree]).expect("a tree");
    stream.try_extend([only_x(rt)]).expect("a stream");
    let group = group_of(Delimiter::Bracket, TokenStream::new());
    stream.try_extend([group]).expect("a group");
    stream.try_extend([x(rt)]).expect("an identifier");
    let plus = punct('+', Spacing::Alone, Span::call_site());
    stream.try_extend([plus]).expect("a mark");
    let minus = minus_three(rt);
    stream.try_extend([minus]).expect("a literal");
}

#[test]
fn std_collects_and_extends() {
    let rt = HostRuntime;
    let mut stream = collect_twice(&rt);
    extend_by_each(&rt, &mut stream);
    let want = "x - 3i32 x - 3i32 x x [] x + - 3i32";
    prints(&rt, stream, want);
}

#[test]
fn many_trees_take_a_step_each() {
    let rt = HostRuntime;
    let mut stream = TokenStream::new();
    for _ in 0..100000 {
        let plus = punct('+', Spacing::Alone, Span::call_site());
        stream.extend_puncts([plus]).expect("+");
    }
    check_answer(&rt, "many trees", &stream.trees().len(), &100000);
    release(stream);
}

#[test]
fn an_empty_group_gives_an_empty_stream() {
    let rt = HostRuntime;
    for &delimiter in &[
        Delimiter::Parenthesis,
        Delimiter::Bracket,
        Delimiter::Brace,
        Delimiter::None,
    ] {
        let group = group_of(delimiter, TokenStream::new());
        let again = copy_of_group(&rt, &group);
        prints(&rt, inside_of(&rt, &group), "");
        prints(&rt, inside_of(&rt, &again), "");
        release((group, again));
    }
}
