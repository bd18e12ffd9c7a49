// Made from crates/pm_token_tests/src/tests/piece_equalities.rt by dev/erase: change that file, not this one.

use crate::shim::prelude::HostRuntime;

// Values are equal exactly if they are the same variant and have equal parts.
use crate::pm_token_tests::tests::checks::are_distinct;
use proved_tokens::lexical::{Piece, PieceKind};
use proved_tokens::literal_escaper::{EscapeError, MixedUnit, Mode, NonZeroChar, NonZeroU8};

#[test]
fn errors_are_equal_to_themselves_alone() {
    let rt = HostRuntime;
    let errors = &[
        EscapeError::ZeroChars,
        EscapeError::MoreThanOneChar,
        EscapeError::LoneSlash,
        EscapeError::InvalidEscape,
        EscapeError::BareCarriageReturn,
        EscapeError::BareCarriageReturnInRawString,
        EscapeError::EscapeOnlyChar,
        EscapeError::TooShortHexEscape,
        EscapeError::InvalidCharInHexEscape,
        EscapeError::OutOfRangeHexEscape,
        EscapeError::NoBraceInUnicodeEscape,
        EscapeError::InvalidCharInUnicodeEscape,
        EscapeError::EmptyUnicodeEscape,
        EscapeError::UnclosedUnicodeEscape,
        EscapeError::LeadingUnderscoreUnicodeEscape,
        EscapeError::OverlongUnicodeEscape,
        EscapeError::LoneSurrogateUnicodeEscape,
        EscapeError::OutOfRangeUnicodeEscape,
        EscapeError::UnicodeEscapeInByte,
        EscapeError::NonAsciiCharInByte,
        EscapeError::NulInCStr,
        EscapeError::UnskippedWhitespaceWarning,
        EscapeError::MultipleSkippedLinesWarning,
    ];
    are_distinct(&rt, errors);
}

#[test]
fn kinds_of_literals_are_equal_to_themselves_alone() {
    let rt = HostRuntime;
    let modes = &[
        Mode::Char,
        Mode::Byte,
        Mode::Str,
        Mode::RawStr,
        Mode::ByteStr,
        Mode::RawByteStr,
        Mode::CStr,
        Mode::RawCStr,
    ];
    are_distinct(&rt, modes);
}

#[test]
fn characters_and_bytes_are_equal_by_their_numbers() {
    let rt = HostRuntime;
    let characters = [None, NonZeroChar::new('a'), NonZeroChar::new('b')];
    are_distinct(&rt, &characters);
    let bytes = [
        None,
        NonZeroU8::new(1),
        NonZeroU8::new(2),
        NonZeroU8::new(0xFF),
    ];
    are_distinct(&rt, &bytes);
}

#[test]
fn a_character_is_no_byte_of_its_number() {
    let rt = HostRuntime;
    let units = [
        MixedUnit::try_from('a'),
        MixedUnit::try_from('b'),
        MixedUnit::try_from('\u{80}'),
        MixedUnit::try_from(0x80),
        MixedUnit::try_from(0xFF),
    ];
    are_distinct(&rt, &units);
}

fn doc(inner: bool, text: &str) -> PieceKind<'_> {
    PieceKind::Doc { inner, text }
}

fn mark(mark: char, joint: bool) -> PieceKind<'static> {
    PieceKind::Mark { joint, mark }
}

fn name(raw: bool, name: &str) -> PieceKind<'_> {
    PieceKind::Name { raw, name }
}

#[test]
fn kinds_of_pieces_are_equal_by_their_parts() {
    let rt = HostRuntime;
    let kinds = [
        PieceKind::FrontMark,
        PieceKind::Gap,
        doc(false, "a"),
        doc(true, "a"),
        doc(false, "b"),
        PieceKind::Opener('('),
        PieceKind::Opener('['),
        PieceKind::Closer('('),
        PieceKind::Closer(')'),
        PieceKind::Literal,
        mark('+', false),
        mark('+', true),
        mark('-', false),
        name(false, "a"),
        name(true, "a"),
        name(false, "b"),
    ];
    are_distinct(&rt, &kinds);
}

/// Makes a piece that is a gap or a literal.
fn piece(is_gap: bool, bytes: usize, chars: usize) -> Piece<'static> {
    let kind = if is_gap {
        PieceKind::Gap
    } else {
        PieceKind::Literal
    };
    Piece { kind, bytes, chars }
}

#[test]
fn pieces_are_equal_by_kind_and_size() {
    let rt = HostRuntime;
    let pieces = [
        piece(true, 3, 1),
        piece(false, 3, 1),
        piece(true, 2, 1),
        piece(true, 3, 2),
    ];
    are_distinct(&rt, &pieces);
}
