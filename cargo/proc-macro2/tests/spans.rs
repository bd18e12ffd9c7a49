//! Where tokens stand.
#![cfg(span_locations)]
use proc_macro2::{LineColumn, Literal, Span, TokenStream, TokenTree};

fn trees(text: &str) -> Vec<TokenTree> {
    text.parse::<TokenStream>().expect("the text is one").into_iter().collect()
}

#[test]
fn places_are_looked_up() {
    // Each test has a thread, and so a map, of its own.
    let first = trees("é a\n (bc)");
    assert_eq!(format!("{:?}", first[1].span()), "bytes(3..4)");
    assert_eq!(first[1].span().byte_range(), 3..4);
    assert_eq!(first[2].span().start(), LineColumn { line: 2, column: 1 });
    assert_eq!(first[2].span().end(), LineColumn { line: 2, column: 5 });
    assert_eq!(first[2].span().source_text().as_deref(), Some("(bc)"));
    assert_eq!(first[0].span().file(), "<parsed string 1>");
    assert_eq!(first[0].span().local_file(), None);
    let joined = first[0].span().join(first[1].span()).expect("both are in one file");
    assert_eq!(joined.source_text().as_deref(), Some("é a"));
    let second = trees("x");
    assert!(first[0].span().join(second[0].span()).is_none());
    assert_eq!(second[0].span().file(), "<parsed string 2>");
    let TokenTree::Group(group) = &first[2] else {
        panic!("it is a group");
    };
    assert_eq!(group.span_open().source_text().as_deref(), Some("("));
    assert_eq!(group.delim_span().close().source_text().as_deref(), Some(")"));
    assert_eq!(Span::call_site().source_text(), None);
    assert_eq!(Span::call_site().file(), "<unspecified>");
    proc_macro2::extra::invalidate_current_thread_spans();
    assert_eq!(format!("{:?}", trees("y")[0].span()), "bytes(1..2)");
}

#[test]
fn faults_are_reported() {
    let fault = "a\n ]".parse::<TokenStream>().expect_err("nothing opens");
    assert_eq!(fault.span().start(), LineColumn { line: 2, column: 1 });
    assert_eq!(format!("{fault:?}"), "LexError { span: bytes(4..4) }");
    assert_eq!(fault.to_string(), "cannot parse string into token stream");
}

#[test]
fn literals_have_parts() {
    let literal: Literal = "0.1".parse().expect("it is a literal");
    assert_eq!(literal.span().source_text().as_deref(), Some("0.1"));
    let dot = literal.subspan(1..2).expect("it is a part");
    assert_eq!(dot.source_text().as_deref(), Some("."));
    assert!(literal.subspan(1..5).is_none());
    assert!(literal.subspan(..=usize::MAX).is_none());
}
