// Made from crates/pm_token_tests/src/tests/shown_errors.rt by dev/erase: change that file, not this one.

use crate::shim::prelude::HostRuntime;

// The `Debug` and `Display` texts of errors.
use crate::pm_token_tests::tests::checks::{are_displayed, are_shown, displays, read_literal, shows};
use proved_tokens::literal_escaper::EscapeError;
use proved_tokens::pm_span::Span;
use proved_tokens::pm_span::parts::span_of;
use proved_tokens::pm_token::parts::fault;
use proved_tokens::pm_token::{ConversionErrorKind, IdentError, ParseError};
use crate::shim::alloc::AllocError;
use crate::shim::process::Abort;
use crate::test_helpers::release;

/// Asserts the `Debug` text of the error for a text that is no literal.
fn is_refused_as(rt: &impl Abort, text: &str, want: &str) {
    let refused = read_literal(text).err();
    shows(rt, &refused, want);
    release(refused);
}

#[test]
fn a_fault_shows_its_span_wherever_it_is() {
    let rt = HostRuntime;
    let rows = [
        (fault(Span::call_site()), "LexError { span: bytes(0..0) }"),
        (fault(span_of(1, 1)), "LexError { span: bytes(1..1) }"),
        (fault(span_of(28, 30)), "LexError { span: bytes(28..30) }"),
    ];
    are_shown(&rt, &rows);
    let want = "Some(Lex(LexError { span: bytes(0..0) }))";
    is_refused_as(&rt, "- 1", want);
}

#[test]
fn an_error_of_parsing_shows_its_kind() {
    let rt = HostRuntime;
    let rows = [
        (
            ParseError::Lex(fault(span_of(2, 2))),
            "Lex(LexError { span: bytes(2..2) })",
        ),
        (ParseError::MapFull, "MapFull"),
        ];
    are_shown(&rt, &rows);
}

#[test]
fn an_error_of_parsing_says_what_is_wrong() {
    let rt = HostRuntime;
    let fault_says = "cannot parse string into token stream";
    displays(&rt, &fault(span_of(2, 2)), fault_says);
    let rows = [
        (ParseError::Lex(fault(Span::call_site())), fault_says),
        (ParseError::MapFull, "map full"),
        ];
    are_displayed(&rt, &rows);
}

#[test]
fn an_error_of_a_name_shows_its_kind() {
    let rt = HostRuntime;
    let rows = &[
        (IdentError::Empty, "Empty"),
        (IdentError::Number, "Number"),
        (IdentError::Invalid, "Invalid"),
        (IdentError::Reserved, "Reserved"),
        ];
    are_shown(&rt, rows);
}

#[test]
fn an_error_of_a_name_says_what_is_wrong() {
    let rt = HostRuntime;
    let rows = &[
        (
            IdentError::Empty,
            "an identifier has at least one character",
        ),
        (IdentError::Number, "a number is no identifier"),
        (IdentError::Invalid, "not a valid identifier"),
        (
            IdentError::Reserved,
            "this name is reserved, and can't be raw",
        ),
        ];
    are_displayed(&rt, rows);
}

#[test]
fn a_refusal_of_a_value_shows_its_fault() {
    let rt = HostRuntime;
    let rows = &[
        (
            ConversionErrorKind::FailedToUnescape(EscapeError::BareCarriageReturn),
            "FailedToUnescape(BareCarriageReturn)",
        ),
        (
            ConversionErrorKind::InvalidLiteralKind,
            "InvalidLiteralKind",
        ),
        ];
    are_shown(&rt, rows);
}

#[test]
fn a_refusal_of_a_value_says_what_is_wrong() {
    let rt = HostRuntime;
    let rows = &[
        (
            ConversionErrorKind::FailedToUnescape(EscapeError::LoneSlash),
            "cannot unescape the literal",
        ),
        (
            ConversionErrorKind::InvalidLiteralKind,
            "the literal is of another kind or has a suffix",
        ),
        ];
    are_displayed(&rt, rows);
}

#[test]
fn an_error_of_a_content_says_what_is_wrong() {
    let rt = HostRuntime;
    let rows = &[
        (EscapeError::LoneSlash, "nothing follows the backslash"),
        (EscapeError::NulInCStr, "a zero in a C string"),
    ];
    are_displayed(&rt, rows);
}
