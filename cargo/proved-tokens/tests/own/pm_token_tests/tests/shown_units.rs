// Made from crates/pm_token_tests/src/tests/shown_units.rt by dev/erase: change that file, not this one.

use crate::shim::prelude::HostRuntime;

// The `Debug` texts of the types of contents.
use crate::pm_token_tests::tests::checks::are_shown;
use proved_tokens::literal_escaper::{EscapeError, MixedUnit, Mode, NonZeroChar, NonZeroU8};

#[test]
fn an_error_shows_its_name() {
    let rt = HostRuntime;
    let rows = &[
        (EscapeError::ZeroChars, "ZeroChars"),
        (EscapeError::MoreThanOneChar, "MoreThanOneChar"),
        (EscapeError::LoneSlash, "LoneSlash"),
        (EscapeError::InvalidEscape, "InvalidEscape"),
        (EscapeError::BareCarriageReturn, "BareCarriageReturn"),
        (
            EscapeError::BareCarriageReturnInRawString,
            "BareCarriageReturnInRawString",
        ),
        (EscapeError::EscapeOnlyChar, "EscapeOnlyChar"),
        (EscapeError::TooShortHexEscape, "TooShortHexEscape"),
        (
            EscapeError::InvalidCharInHexEscape,
            "InvalidCharInHexEscape",
        ),
        (EscapeError::OutOfRangeHexEscape, "OutOfRangeHexEscape"),
        (
            EscapeError::NoBraceInUnicodeEscape,
            "NoBraceInUnicodeEscape",
        ),
        (
            EscapeError::InvalidCharInUnicodeEscape,
            "InvalidCharInUnicodeEscape",
        ),
        (EscapeError::EmptyUnicodeEscape, "EmptyUnicodeEscape"),
        (EscapeError::UnclosedUnicodeEscape, "UnclosedUnicodeEscape"),
        (
            EscapeError::LeadingUnderscoreUnicodeEscape,
            "LeadingUnderscoreUnicodeEscape",
        ),
        (EscapeError::OverlongUnicodeEscape, "OverlongUnicodeEscape"),
        (
            EscapeError::LoneSurrogateUnicodeEscape,
            "LoneSurrogateUnicodeEscape",
        ),
        (
            EscapeError::OutOfRangeUnicodeEscape,
            "OutOfRangeUnicodeEscape",
        ),
        (EscapeError::UnicodeEscapeInByte, "UnicodeEscapeInByte"),
        (EscapeError::NonAsciiCharInByte, "NonAsciiCharInByte"),
        (EscapeError::NulInCStr, "NulInCStr"),
        (
            EscapeError::UnskippedWhitespaceWarning,
            "UnskippedWhitespaceWarning",
        ),
        (
            EscapeError::MultipleSkippedLinesWarning,
            "MultipleSkippedLinesWarning",
        ),
    ];
    are_shown(&rt, rows);
}

#[test]
fn a_kind_of_literal_shows_its_name() {
    let rt = HostRuntime;
    let rows = &[
        (Mode::Char, "Char"),
        (Mode::Byte, "Byte"),
        (Mode::Str, "Str"),
        (Mode::RawStr, "RawStr"),
        (Mode::ByteStr, "ByteStr"),
        (Mode::RawByteStr, "RawByteStr"),
        (Mode::CStr, "CStr"),
        (Mode::RawCStr, "RawCStr"),
    ];
    are_shown(&rt, rows);
}

#[test]
fn a_unit_shows_its_type_and_value() {
    let rt = HostRuntime;
    let characters = [
        (NonZeroChar::new('a'), "Some(NonZeroChar('a'))"),
        (NonZeroChar::new('\''), "Some(NonZeroChar('\\''))"),
        (NonZeroChar::new('\0'), "None"),
    ];
    are_shown(&rt, &characters);
    let bytes = [
        (NonZeroU8::new(5), "Some(NonZeroU8(5))"),
        (NonZeroU8::new(0), "None"),
    ];
    are_shown(&rt, &bytes);
    let units = [
        (MixedUnit::try_from('a'), "Ok(Char(NonZeroChar('a')))"),
        (
            MixedUnit::try_from('\x7F'),
            "Ok(Char(NonZeroChar('\\u{7f}')))",
        ),
        (
            MixedUnit::try_from('\u{E9}'),
            "Ok(Char(NonZeroChar('\u{E9}')))",
        ),
        (MixedUnit::try_from('\0'), "Err(NulInCStr)"),
        // A byte of at most 7F is a character.
        (
            MixedUnit::try_from(0x7F),
            "Ok(Char(NonZeroChar('\\u{7f}')))",
        ),
        (MixedUnit::try_from(0x80), "Ok(HighByte(NonZeroU8(128)))"),
        (MixedUnit::try_from(0), "Err(NulInCStr)"),
    ];
    are_shown(&rt, &units);
}
