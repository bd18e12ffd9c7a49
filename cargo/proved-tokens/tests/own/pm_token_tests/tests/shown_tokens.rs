// Made from crates/pm_token_tests/src/tests/shown_tokens.rt by dev/erase: change that file, not this one.

use crate::shim::prelude::HostRuntime;

use crate::pm_token_tests::tests::checks::{displays, shows};
use proved_tokens::pm_span::Span;
use proved_tokens::pm_span::parts::span_of;
use proved_tokens::pm_token::parts::{ident, punct};
use proved_tokens::pm_token::{Ident, Spacing};
use crate::shim::alloc::AllocError;
use crate::shim::process::Abort;
use crate::test_helpers::release;

fn low_line(span: Span) -> Result<Ident, AllocError> {
    ident("_", false, span)
}

/// Asserts the `Display` and `Debug` texts of `_` with this span.
fn low_line_shows(rt: &impl Abort, span: Span, want: &str) {
    let name = low_line(span).expect(want);
    displays(rt, &name, "_");
    shows(rt, &name, want);
    release(name);
}

#[test]
fn tokens_show_their_parts_and_spans() {
    let rt = HostRuntime;
    let want = "Ident { sym: _, span: bytes(1..2) }";
    low_line_shows(&rt, span_of(1, 2), want);
    low_line_shows(&rt, Span::call_site(), "Ident { sym: _ }");
    let mark = punct('+', Spacing::Joint, span_of(3, 4));
    displays(&rt, &mark, "+");
    let want = "Punct { char: '+', spacing: Joint, span: bytes(3..4) }";
    shows(&rt, &mark, want);
}
