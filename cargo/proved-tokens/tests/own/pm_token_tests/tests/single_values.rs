// Made from crates/pm_token_tests/src/tests/single_values.rt by dev/erase: change that file, not this one.

use crate::shim::prelude::HostRuntime;

use crate::pm_token_tests::tests::checks::{check_answer, read_literal};
use proved_tokens::pm_token::ConversionErrorKind;
use crate::shim::process::Abort;
use crate::test_helpers::release;

type Value<T> = Result<T, ConversionErrorKind>;

/// Returns the value of the text's literal as a character, and as a byte.
fn single_values(rt: &impl Abort, text: &str) -> (Value<char>, Value<u8>) {
    let literal = read_literal(text).expect(text);
    let values = (literal.char_value(), literal.byte_value());
    release(literal);
    values
}

/// Returns this value, or the error for another kind of literal.
fn right_kind<T>(value: Option<T>) -> Value<T> {
    match value {
        Some(value) => Ok(value),
        None => Err(ConversionErrorKind::InvalidLiteralKind),
    }
}

/// Asserts the values of each text's literal as a character and as a byte. If it has none, the error is
/// `InvalidLiteralKind`.
fn single_values_are(rt: &impl Abort, rows: &[(&str, Option<char>, Option<u8>)]) {
    for &(text, character, byte) in rows {
        let values = single_values(rt, text);
        let want = (right_kind(character), right_kind(byte));
        check_answer(rt, text, &values, &want);
        release((values, want));
    }
}

#[test]
fn a_character_has_the_character_between_its_quotes() {
    let rt = HostRuntime;
    let rows = &[
        ("'\\''", Some('\''), None),
        ("' '", Some(' '), None),
        ("'\"'", Some('"'), None),
        ("'\u{E9}'", Some('\u{E9}'), None),
        ("'\\n'", Some('\n'), None),
        ("'\\\\'", Some('\\'), None),
        ("'\\x7F'", Some('\u{7F}'), None),
        ("'\\u{10_FFFF}'", Some('\u{10FFFF}'), None),
    ];
    single_values_are(&rt, rows);
}

#[test]
fn a_byte_has_the_byte_between_its_quotes() {
    let rt = HostRuntime;
    let rows = &[
        ("b'\\xFF'", None, Some(255)),
        ("b'a'", None, Some(b'a')),
        ("b'\\''", None, Some(b'\'')),
        ("b'\\0'", None, Some(0)),
    ];
    single_values_are(&rt, rows);
}

#[test]
fn other_literals_are_of_another_kind() {
    let rt = HostRuntime;
    let rows = &[
        ("'a'u8", None, None),
        ("b'a'u8", None, None),
        ("\"a\"", None, None),
        ("b\"a\"", None, None),
        ("1", None, None),
        ("-1", None, None),
    ];
    single_values_are(&rt, rows);
}
