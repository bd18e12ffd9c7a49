//! What is exempt from semantic versioning.
#![cfg(procmacro2_semver_exempt)]
use proc_macro2::{ConversionErrorKind, EscapeError, Literal, Span};

fn literal(text: &str) -> Literal {
    text.parse().expect("it is a literal")
}

#[test]
fn values_are_compared() {
    assert_eq!(literal(r#""a\tb\x41""#).str_value(), Ok(String::from("a\tbA")));
    assert_eq!(literal(r##"r#"\""#"##).str_value(), Ok(String::from("\\\"")));
    assert_eq!(literal(r#"b"\xff""#).byte_str_value(), Ok(vec![0xff]));
    assert_eq!(literal(r#"c"a\x80""#).cstr_value(), Ok(vec![b'a', 0x80, 0]));
    assert_eq!(literal("1").str_value(), Err(ConversionErrorKind::InvalidLiteralKind));
    assert_eq!(
        literal("\"a\r\nb\"").str_value(),
        Err(ConversionErrorKind::FailedToUnescape(EscapeError::BareCarriageReturn))
    );
}

#[test]
fn warnings_are_not_fatal() {
    assert!(EscapeError::NulInCStr.is_fatal());
    assert!(!EscapeError::UnskippedWhitespaceWarning.is_fatal());
    assert!(!EscapeError::MultipleSkippedLinesWarning.is_fatal());
}

#[test]
fn spans_are_compared() {
    assert!(Span::def_site().eq(&Span::call_site()));
}
