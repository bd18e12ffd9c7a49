// Made from crates/quoting_tests/src/tests/random_trees.rt by dev/erase: change that file, not this one.

use crate::shim::prelude::{AllocGlobal, HostRuntime};

// Short lists of random trees: `finish` returns a stream exactly if some choice of spacings is well spaced. All
// choices are tried.
use crate::quoting_tests::tests::checks::{check_answer, comes_back};
use proved_tokens::proc_macro2::{Delimiter, Group, Ident, Literal, Punct, Spacing, Span, TokenStream, TokenTree};
use proved_tokens::quoting::{Quote, QuoteError};
use crate::shim::process::Abort;
use crate::test_helpers::{Random, release};

/// The number of lists.
const LISTS: u32 = 600;

/// The kinds of six leaves, and the delimiter of the group around two of them.
#[derive(Clone, Copy, Debug)]
struct Case {
    first: u64,
    second: u64,
    third: u64,
    inner: u64,
    innermost: u64,
    last: u64,
    delimiter: u64,
}

/// Whether each of the six leaves is Joint, if it is a mark.
#[derive(Clone, Copy)]
struct Choice {
    first: bool,
    second: bool,
    third: bool,
    inner: bool,
    innermost: bool,
    last: bool,
}

/// Returns a random case.
fn random_case(random: &mut Random) -> Case {
    Case {
        first: random.below(11),
        second: random.below(11),
        third: random.below(11),
        inner: random.below(11),
        innermost: random.below(11),
        last: random.below(11),
        delimiter: random.below(10),
    }
}

/// Returns the choice with this number below 64.
fn choice_of(number: u32) -> Choice {
    Choice {
        first: number & 1 != 0,
        second: number & 2 != 0,
        third: number & 4 != 0,
        inner: number & 8 != 0,
        innermost: number & 16 != 0,
        last: number & 32 != 0,
    }
}

/// Returns the spacing of a mark.
fn spacing_of(joint: bool) -> Spacing {
    if joint {
        Spacing::Joint
    } else {
        Spacing::Alone
    }
}

/// Returns the identifier `a`, or `r#b` if it is raw.
fn word(rt: &(impl Abort + AllocGlobal), is_raw: bool) -> TokenTree {
    let span = Span::call_site();
    let ident = if is_raw {
        Ident::new_raw("b", span)
    } else {
        Ident::new("a", span)
    };
    TokenTree::Ident(ident.expect("a word"))
}

/// Returns the literal of this kind, from 2 to 5.
fn literal(rt: &(impl Abort + AllocGlobal), kind: u64) -> TokenTree {
    let literal = match kind {
        2 => Literal::character('b'),
        3 => Literal::byte_string(b"x"),
        4 => Literal::byte_character(120),
        _ => Literal::u8_unsuffixed(1),
    };
    TokenTree::Literal(literal.expect("a literal"))
}

/// Returns a leaf of this kind, Joint or Alone if it is a mark.
fn leaf(rt: &(impl Abort + AllocGlobal), kind: u64, joint: bool) -> TokenTree {
    match kind {
        0..=1 => word(rt, kind == 1),
        2..=5 => literal(rt, kind),
        6 => TokenTree::Punct(Punct::new('/', spacing_of(joint))),
        7 => TokenTree::Punct(Punct::new('*', spacing_of(joint))),
        8 => TokenTree::Punct(Punct::new('+', spacing_of(joint))),
        _ => TokenTree::Punct(Punct::new('\'', spacing_of(joint))),
    }
}

/// Returns the delimiter of the group.
fn delimiter_of(case: Case) -> Delimiter {
    match case.delimiter {
        0 => Delimiter::None,
        1..=3 => Delimiter::Brace,
        4..=6 => Delimiter::Bracket,
        _ => Delimiter::Parenthesis,
    }
}

/// Returns the group of the case with this choice of spacings, of two leaves.
fn group(rt: &(impl Abort + AllocGlobal), case: Case, joint: Choice) -> TokenTree {
    let leaves = [
        leaf(rt, case.inner, joint.inner),
        leaf(rt, case.innermost, joint.innermost),
    ];
    let inside = TokenStream::from_trees(leaves).expect("a group");
    TokenTree::Group(Group::new(delimiter_of(case), inside))
}

/// Returns the trees of the case with this choice of spacings: three leaves, a group of two, and a leaf.
fn trees(rt: &(impl Abort + AllocGlobal), case: Case, joint: Choice) -> [TokenTree; 5] {
    [
        leaf(rt, case.first, joint.first),
        leaf(rt, case.second, joint.second),
        leaf(rt, case.third, joint.third),
        group(rt, case, joint),
        leaf(rt, case.last, joint.last),
    ]
}

/// Returns whether the choice of this number is well spaced.
fn is_spaced(rt: &(impl Abort + AllocGlobal), case: Case, number: u32) -> bool {
    let trees = trees(rt, case, choice_of(number));
    let stream = TokenStream::from_trees(trees).expect("a stream");
    let spaced = stream.is_well_spaced();
    release(stream);
    spaced
}

/// Returns whether some choice of spacings is well spaced.
fn has_a_choice(rt: &(impl Abort + AllocGlobal), case: Case) -> bool {
    for number in 0..64 {
        if is_spaced(rt, case, number) {
            return true;
        }
    }
    false
}

/// Returns the quote of the case with the choice of this number.
fn quote_with(rt: &(impl Abort + AllocGlobal), case: Case, number: u32) -> Quote {
    let mut quote = Quote::new();
    for tree in trees(rt, case, choice_of(number)) {
        quote.push(tree).expect("a tree");
    }
    quote
}

/// Returns whether the quote has a stream, and whether the stream reads back from its printed text if there is one.
/// Stops the test if memory runs out.
fn is_given(
    rt: &(impl Abort + AllocGlobal),
    found: &Result<TokenStream, QuoteError>,
) -> (bool, bool) {
    match found {
        Ok(stream) => (true, comes_back(rt, stream)),
        Err(error) => {
            assert!(!matches!(error, QuoteError::Memory(_)), "{error:?}");
            (false, true)
        }
    }
}

/// Asserts that the quote of the case with the choice of this number has a stream exactly if some choice is well
/// spaced, and that the stream reads back. Returns whether there is a stream.
fn check_case(rt: &(impl Abort + AllocGlobal), case: Case, number: u32) -> bool {
    let may = has_a_choice(rt, case);
    let quote = quote_with(rt, case, number);
    let found = quote.finish();
    let answer = is_given(rt, &found);
    release((quote, found));
    assert!(answer == (may, true), "{answer:?} of {case:?}");
    may
}

#[test]
fn a_stream_is_given_exactly_where_some_choice_is_well_spaced() {
    let rt = HostRuntime;
    let mut random = Random::new(7);
    let mut given: u32 = 0;
    for _ in 0..LISTS {
        let case = random_case(&mut random);
        let number = random.below(64) as u32;
        if check_case(&rt, case, number) {
            given = given.saturating_add(1);
        }
    }
    // Both results occurred.
    assert!(given > 100 && given < 500, "{given}");
}
