// Made from crates/pm_stream_tests/src/tests/same_tokens.rt by dev/erase: change that file, not this one.

use crate::shim::prelude::HostRuntime;

// Tests which texts give the same tokens.
use crate::pm_stream_tests::tests::checks::check_same;

/// Two texts, and whether they give the same tokens.
const TEXTS: &[(&str, &str, bool)] = &[
    ("a", "  a", true),
    ("", "// c", true),
    ("+'a", "+ 'a", false),
    ("a", "r#a", false),
    ("a", "b", false),
    ("a", "", false),
    ("a b", "a", false),
    ("(a) b", "( a ) b", true),
    ("(a) b", "(a b)", false),
    ("(a)", "[a]", false),
    ("([{}])", "( [ { } ] )", true),
    ("([{}])", "([])", false),
    ("+=", "+ =", false),
    ("+", "-", false),
    ("0x10", "16", false),
    ("\"\\n\"", "\"\n\"", false),
    ("/// d", "#[doc = \" d\"]", true),
    ("a", "\"a\"", false),
    // A line break between two pieces, or after a mark or a number, which may give other tokens.
    ("x // c\ny", "x y", true),
    ("+\n+", "+ +", true),
    ("+\n+", "++", false),
    ("//\r\ny", "y", true),
    ("a+=b", "a\n+=b", true),
    ("/// d\nx", "/// d\n\nx", true),
    ("(a)\"b\"c", "(\na\n)\n\"b\"c", true),
    ("a+=b", "a+\n=b", false),
    ("1.f32", "1.\nf32", false),
    ("1.0e+_5\u{301}", "1.0e\n+_5\u{301}", false),
];

#[test]
fn streams_are_the_same_but_for_their_spans() {
    let rt = HostRuntime;
    for &(text, other, same) in TEXTS {
        check_same(&rt, text, other, same);
    }
}
