// Made from crates/pm_token_tests/src/tests/checks.rt by dev/erase: change that file, not this one.
//! Assertions that the tests share. They return nothing, and stop the test if memory runs out, because each `?` in a
//! test makes its proof longer. For the same reason tests let go of tokens by `release`.

use crate::shim::prelude::format;

use proved_tokens::pm_span::{SourceMap, Span};
use proved_tokens::pm_token::{Ident, IdentError, Literal, ParseError};
use crate::shim::alloc::AllocError;
use crate::shim::fmt::{Debug, Display};
use crate::shim::process::Abort;
use crate::test_helpers::release;

/// Asserts that the answer in a row of a test is the expected one. The row is printed if it fails.
pub fn check_answer<T: PartialEq + Debug>(rt: &impl Abort, row: &str, answer: &T, want: &T) {
    assert!(answer == want, "{answer:?} and not {want:?} of {row:?}");
}

/// Reads the literal of the text, as the first text of a new map.
pub fn read_literal(text: &str) -> Result<Literal, ParseError> {
    let mut map = SourceMap::new();
    Literal::from_str(text, &mut map)
}

/// Makes the identifier of the name, with the span 0..0.
pub fn make_ident(name: &str, raw: bool) -> Result<Ident, IdentError> {
    if raw {
        Ident::new_raw(name, Span::call_site())
    } else {
        Ident::new(name, Span::call_site())
    }
}

/// Returns the text of the literal, if it was made.
fn text_of(literal: &Result<Literal, AllocError>) -> Option<&str> {
    match literal {
        Ok(literal) => Some(literal.text()),
        Err(_) => None,
    }
}

/// Asserts that the literal was made, and has this text.
pub fn is_written(rt: &impl Abort, literal: Result<Literal, AllocError>, want: &str) {
    check_answer(rt, want, &text_of(&literal), &Some(want));
    release(literal);
}

/// Asserts the `Display` text of a value.
pub fn displays<T: Display>(rt: &impl Abort, value: &T, want: &str) {
    let shown = format!("{value}").expect(want);
    check_answer(rt, want, &shown.as_str(), &want);
}

/// Asserts the `Debug` text of a value.
pub fn shows<T: Debug>(rt: &impl Abort, value: &T, want: &str) {
    let shown = format!("{value:?}").expect(want);
    check_answer(rt, want, &shown.as_str(), &want);
}

/// Asserts the `Debug` text of a value, if it was made.
pub fn made_shows<T: Debug, E: Debug>(
    rt: &impl Abort,
    made: Result<T, E>,
    want: &str,
) {
    let value = made.expect(want);
    shows(rt, &value, want);
}

/// Asserts the `Debug` text of each value of the table.
pub fn are_shown<T: Debug>(rt: &impl Abort, rows: &[(T, &str)]) {
    for (value, want) in rows {
        shows(rt, value, want);
    }
}

/// Asserts the `Display` text of each value of the table.
pub fn are_displayed<T: Display>(rt: &impl Abort, rows: &[(T, &str)]) {
    for (value, want) in rows {
        displays(rt, value, want);
    }
}

/// Asserts that each value of the table is equal to itself, and to none of the others.
pub fn are_distinct<T: PartialEq + Debug>(rt: &impl Abort, values: &[T]) {
    for (at, value) in values.iter().enumerate() {
        is_distinct(rt, values, at, value);
    }
}

/// Asserts that the value is equal to the one at this index of the table, and to no other.
fn is_distinct<T: PartialEq + Debug>(rt: &impl Abort, values: &[T], at: usize, value: &T) {
    for (index, other) in values.iter().enumerate() {
        let answers = (value == other, value != other);
        let want = (at == index, at != index);
        assert!(answers == want, "of {value:?} and {other:?}");
    }
}
