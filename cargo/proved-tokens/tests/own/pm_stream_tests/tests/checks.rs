// Made from crates/pm_stream_tests/src/tests/checks.rt by dev/erase: change that file, not this one.
//! Assertions that the tests share, each about one text that is parsed.
//!
//! They return nothing, and stop the test if memory runs out, because each `?` in a test makes its proof longer. For
//! the same reason tests let go of streams and trees by `release`.

use crate::shim::prelude::{AllocGlobal, GrowText, format};

use proved_tokens::pm_span::parts::span_of;
use proved_tokens::proc_macro2::token_stream::IntoIter;
use proved_tokens::proc_macro2::{ParseError, SourceMap, Span, TokenStream};
use crate::shim::alloc::AllocError;
use crate::shim::fmt::{Debug, Display};
use crate::shim::process::Abort;
use crate::test_helpers::release;

/// Asserts that the answer in a row of a test is the expected one. The row is printed if it fails.
pub fn check_answer<T: PartialEq + Debug>(rt: &impl Abort, row: &str, answer: &T, want: &T) {
    assert!(answer == want, "{answer:?} and not {want:?} of {row:?}");
}

/// The stream of the text, which is the first file of a new map.
pub fn parse_first(text: &str) -> Result<TokenStream, ParseError> {
    TokenStream::from_str(text, &mut SourceMap::new())
}

/// The stream of the text, which parses and is the first file of a new map.
pub fn parsed(rt: &impl Abort, text: &str) -> TokenStream {
    parse_first(text).expect(text)
}

/// The stream of the text, which parses and becomes the next file of the map.
pub fn parsed_into(rt: &impl Abort, map: &mut SourceMap, text: &str) -> TokenStream {
    TokenStream::from_str(text, map).expect(text)
}

/// The iterator over the trees of the stream.
pub fn iterator_of(stream: TokenStream) -> Result<IntoIter, AllocError> {
    Ok(stream.try_into_iter()?)
}

/// The parts one after the other, each the given number of times.
pub fn repeat_parts(rt: &impl Abort, parts: &[(&str, u32)]) -> String {
    let mut text = String::new();
    for (part, count) in parts {
        for _ in 0..*count {
            text.push_str_fallibly(part).expect("a long text");
        }
    }
    text
}

/// The span between the positions, which the map holds.
pub fn span_between(rt: &impl Abort, map: &SourceMap, positions: (u32, u32)) -> Span
{
    let (lo, hi) = positions;
    assert!(lo <= hi, "of {lo}..{hi}");
    let span = span_of(lo, hi);
    assert!(map.holds(span), "of {lo}..{hi}");
    span
}

/// Asserts whether two texts, each parsed in a new map, give the same tokens.
pub fn check_same(rt: &(impl Abort + AllocGlobal), text: &str, other: &str, same: bool) {
    let found = are_same(rt, text, other);
    check_answer(rt, text, &(other, found), &(other, same));
}

/// Asserts that Debug shows `want` for the stream of `text`, which becomes the next text of the map.
pub fn check_shown(rt: &(impl Abort + AllocGlobal), map: &mut SourceMap, text: &str, want: &str) {
    let stream = TokenStream::from_str(text, map).expect(text);
    shows(rt, &stream, want);
    release(stream);
}

/// The printed text of the stream of `text`, which is parsed in a new map.
pub fn printed_text(rt: &impl Abort, text: &str) -> String {
    let stream = parsed(rt, text);
    let printed = display_text(rt, &stream);
    release(stream);
    printed
}

/// Whether the stream of `text`, parsed in a new map, is well spaced.
pub fn parses_well_spaced(rt: &impl Abort, text: &str) -> bool {
    let stream = parsed(rt, text);
    let spaced = stream.is_well_spaced();
    release(stream);
    spaced
}

/// Whether the two texts, each parsed in a new map, give the same tokens, compared in both directions.
fn are_same(rt: &impl Abort, text: &str, other: &str) -> bool {
    let stream = parsed(rt, text);
    let other = parsed(rt, other);
    let same = stream.same_tokens(&other) && other.same_tokens(&stream);
    release((stream, other));
    same
}

/// How many trees the stream of `text` has.
pub fn count_trees(rt: &impl Abort, text: &str) -> usize {
    let stream = parsed(rt, text);
    let count = stream.trees().len();
    release(stream);
    count
}

/// The text that Display writes for the value.
pub fn display_text<T: Display>(rt: &impl Abort, value: &T) -> String {
    format!("{value}").expect("a text")
}

/// Asserts that the value is displayed as this text.
pub fn displays<T: Display>(rt: &impl Abort, value: &T, want: &str) {
    let found = display_text(rt, value);
    check_answer(rt, want, &found.as_str(), &want);
}

/// Asserts that the value is displayed as this text, and drops the value.
pub fn prints<T: Display>(rt: &impl Abort, value: T, want: &str) {
    displays(rt, &value, want);
}

/// Asserts that Debug shows the value as this text.
pub fn shows<T: Debug>(rt: &impl Abort, value: &T, want: &str) {
    let found = format!("{value:?}").expect(want);
    check_answer(rt, want, &found.as_str(), &want);
}

/// Asserts that the value is displayed as this text, whatever width or precision the format has.
pub fn has_no_width<T: Display>(rt: &impl Abort, value: &T, text: &str) {
    let found = format!("{value:>9}|{value:*^9}|{value:.1}").expect(text);
    let want = format!("{text}|{text}|{text}").expect(text);
    check_answer(rt, text, &found.as_str(), &want.as_str());
}
