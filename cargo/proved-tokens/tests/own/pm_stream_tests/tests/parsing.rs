// Made from crates/pm_stream_tests/src/tests/parsing.rt by dev/erase: change that file, not this one.

use crate::shim::prelude::{AllocGlobal, HostRuntime, format};

use crate::pm_stream_tests::tests::checks::{check_answer, display_text, parse_first};
use proved_tokens::pm_span::SourceMap;
use proved_tokens::pm_span::parts::span_of;
use proved_tokens::pm_stream::TokenStream;
use proved_tokens::pm_stream::reprinting::reprint;
use proved_tokens::pm_token::ParseError;
use crate::shim::fmt::Debug;
use crate::shim::process::Abort;
use crate::test_helpers::release;

/// Whether the text parses in a map with this limit, whether the map then holds its four characters, whether the map is
/// full and rejects the empty text, and whether it holds one more position.
fn at_limit(text: &str, limit: u32) -> [bool; 4] {
    let mut map = SourceMap::with_limit(limit);
    let parsed = TokenStream::from_str(text, &mut map);
    let holds = map.holds(span_of(1, 5));
    let empty = TokenStream::from_str("", &mut map);
    let full = matches!(&empty, Err(ParseError::MapFull));
    let answers = [parsed.is_ok(), holds, full, map.holds(span_of(6, 6))];
    release((parsed, empty, map));
    answers
}

/// Asserts that a map with the limit `limit` holds the text, which parses or not, and that the map is then full, or
/// otherwise holds one more position.
fn check_limit(rt: &(impl Abort + AllocGlobal), text: &str, parses: bool, limit: u32, full: bool) {
    let found = at_limit(text, limit);
    let want = [parses, true, full, !full];
    check_answer(rt, text, &(limit, found), &(limit, want));
}

#[test]
fn a_file_stays_in_the_map_up_to_the_limit() {
    let rt = HostRuntime;
    check_limit(&rt, "abcd", true, 5, true);
    check_limit(&rt, "abcd", true, 6, false);
    check_limit(&rt, "abc)", false, 5, true);
    check_limit(&rt, "abc)", false, 6, false);
}

/// How Debug shows the value, which is dropped.
fn debug_text<T: Debug>(rt: &impl Abort, value: T) -> String {
    format!("{value:?}").expect("a text")
}

/// Asserts that parsing the text without a map gives the same result as with a new map, including spans and faults.
fn check_unmapped(rt: &(impl Abort + AllocGlobal), text: &str) {
    let mapped = debug_text(rt, parse_first(text));
    let unmapped = TokenStream::parse_unmapped(text);
    let unmapped = debug_text(rt, unmapped);
    check_answer(rt, text, &unmapped.as_str(), &mapped.as_str());
}

#[test]
fn a_text_is_parsed_without_a_map_as_in_a_new_one() {
    let rt = HostRuntime;
    check_unmapped(&rt, "");
    check_unmapped(&rt, "/// x\nf(1, 'c') += \u{e9}");
    check_unmapped(&rt, "a (]");
    check_unmapped(&rt, "a ( [ b");
}

/// The printed text of the text's stream, printed from trees, or why it does not parse.
fn print_trees(rt: &impl Abort, text: &str) -> Result<String, ParseError> {
    match TokenStream::parse_unmapped(text) {
        Ok(stream) => {
            let printed = display_text(rt, &stream);
            release(stream);
            Ok(printed)
        }
        Err(error) => Err(error),
    }
}

/// Asserts that printing the text without trees gives the printed text of its stream, or the same fault.
fn check_reprinted(rt: &(impl Abort + AllocGlobal), text: &str) {
    let by_trees = print_trees(rt, text);
    let by_trees = debug_text(rt, by_trees);
    let reprinted = debug_text(rt, reprint(text));
    check_answer(rt, text, &reprinted.as_str(), &by_trees.as_str());
}

#[test]
fn a_text_is_reprinted_as_its_stream_is_printed() {
    let rt = HostRuntime;
    check_reprinted(&rt, "");
    check_reprinted(&rt, "//! x\n/// \u{e9}\"\n{f(1, 'c') += r#a; [] ({}) 'b}");
    check_reprinted(&rt, "a (]");
    check_reprinted(&rt, "a ( [ b");
    check_reprinted(&rt, "{ \"");
}
