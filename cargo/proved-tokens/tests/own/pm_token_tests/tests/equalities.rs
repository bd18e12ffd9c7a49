// Made from crates/pm_token_tests/src/tests/equalities.rt by dev/erase: change that file, not this one.

use crate::shim::prelude::HostRuntime;

// Values are equal exactly if they are the same variant and have equal parts.
use crate::pm_token_tests::tests::checks::are_distinct;
use proved_tokens::literal_escaper::EscapeError;
use proved_tokens::pm_token::{ConversionErrorKind, Delimiter, Spacing};
use crate::shim::alloc::AllocError;

#[test]
fn delimiters_are_equal_to_themselves_alone() {
    let rt = HostRuntime;
    let delimiters = &[
        Delimiter::Parenthesis,
        Delimiter::Brace,
        Delimiter::Bracket,
        Delimiter::None,
    ];
    are_distinct(&rt, delimiters);
}

#[test]
fn spacings_are_equal_to_themselves_alone() {
    let rt = HostRuntime;
    are_distinct(&rt, &[Spacing::Alone, Spacing::Joint]);
}

#[test]
fn refusals_of_values_are_equal_by_their_faults() {
    let rt = HostRuntime;
    let refusals = [
        ConversionErrorKind::FailedToUnescape(EscapeError::LoneSlash),
        ConversionErrorKind::FailedToUnescape(EscapeError::InvalidEscape),
        ConversionErrorKind::InvalidLiteralKind,
        ];
    are_distinct(&rt, &refusals);
}
