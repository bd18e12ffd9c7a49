// Made from crates/pm_token_tests/src/tests/quoted.rt by dev/erase: change that file, not this one.

use crate::shim::prelude::HostRuntime;

// The literals of bytes that are no text. The literals of texts are among the recorded answers of `conformance`.
use crate::pm_token_tests::tests::checks::is_written;
use proved_tokens::pm_token::Literal;

#[test]
fn bytes_that_are_no_text_are_written_with_escapes() {
    let rt = HostRuntime;
    is_written(&rt, Literal::byte_character(0xAB), "b'\\xAB'");
    let bytes = b"\x1F ~\x7F\x80\xFF";
    is_written(
        &rt,
        Literal::byte_string(bytes),
        "b\"\\x1F ~\\x7F\\x80\\xFF\"",
    );
    let bytes = b"\x7F\xFF\xFE\xCC\xB3";
    is_written(
        &rt,
        Literal::c_string(bytes),
        "c\"\\u{7f}\\xFF\\xFE\\u{333}\"",
    );
    let bytes = b"\xE2\x82a\xF0\x9F\x98";
    is_written(
        &rt,
        Literal::c_string(bytes),
        "c\"\\xE2\\x82a\\xF0\\x9F\\x98\"",
    );
    let bytes = b"\xC3\xA9\x80\xC0\x80";
    is_written(
        &rt,
        Literal::c_string(bytes),
        "c\"\u{E9}\\x80\\xC0\\x80\"",
    );
}
