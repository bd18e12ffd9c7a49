//! What `fix` rewrites.

use lint_calls::{fix, Columns};

/// Checks the text after the change, and the number of rewritten calls.
#[track_caller]
fn check(text: &str, expected: &str, calls: usize) {
    let fixed = fix("a.rs", text, Columns::Characters).unwrap();
    assert_eq!((fixed.text.as_str(), fixed.calls), (expected, calls));
}

/// Checks that a text stays as it is.
#[track_caller]
fn check_kept(text: &str) {
    check(text, text, 0);
}

#[test]
fn takes_out_the_name_and_the_mark() {
    check("fn f() { g(dbg!(x + 1)) }", "fn f() { g((x + 1)) }", 1);
}

#[test]
fn takes_out_nested_calls() {
    check("fn f() { dbg!(dbg!(x)); dbg!(g(dbg!([dbg!(y)])) ) }", "fn f() { ((x)); (g(([(y)])) ) }", 5);
}

#[test]
fn takes_out_a_comma_at_the_end() {
    check("fn f() { dbg!(x,); dbg!(\n  y , // why\n) }", "fn f() { (x); (\n  y  // why\n) }", 2);
}

#[test]
fn takes_out_paths() {
    check("fn f() { std::dbg!(x) + ::std::dbg!(y) }", "fn f() { (x) + (y) }", 2);
    check(
        "fn f() { 'a: loop { break 'a ::std::dbg!(x) } return ::std::dbg!(y) }",
        "fn f() { 'a: loop { break 'a (x) } return (y) }",
        2,
    );
}

#[test]
fn keeps_comments_and_white_space() {
    let text = "fn f()  {\r\n\tdbg /* a */ ! // b\r\n\t( /* c */ x ) ; // dbg!(d)\r\n}";
    check(text, "fn f()  {\r\n\t /* a */  // b\r\n\t( /* c */ x ) ; // dbg!(d)\r\n}", 1);
}

#[test]
fn keeps_the_byte_order_mark_and_wide_characters() {
    check(
        "\u{feff}#!/bin/é\nfn f() { g(\"😀\", dbg!(\"é😀\")) }",
        "\u{feff}#!/bin/é\nfn f() { g(\"😀\", (\"é😀\")) }",
        1,
    );
}

#[test]
fn keeps_calls_with_another_number_of_arguments() {
    check_kept("fn f() { dbg!(); dbg!(x, y); dbg!(a < b, c > d); dbg!(x; y); dbg!(,) }");
}

#[test]
fn commas_inside_of_an_argument_are_no_end() {
    let arguments =
        ["f::<A, B>(x)", "|a, b: M<A, B>| a + b", "x as M<A, B>", "<T as U<A, B>>::c()", "[a, b]", "m!(a, b)"];
    for argument in arguments {
        check(&format!("fn f() {{ dbg!({argument}) }}"), &format!("fn f() {{ ({argument}) }}"), 1);
    }
}

#[test]
fn arguments_may_be_any_expressions() {
    let arguments =
        ["if a { b } else { c }", "match a { _ => 1 }", "'a: loop { break 'a 1 }", "&raw const x", "a?.b.await", ".."];
    for argument in arguments {
        check(&format!("fn f() {{ dbg!({argument},) }}"), &format!("fn f() {{ ({argument}) }}"), 1);
    }
}

#[test]
fn keeps_other_delimiters_and_macros() {
    check_kept("fn f() { dbg! { x } dbg![y]; todo!(z); unimplemented!(\"a\"); dbg(x) }");
}

#[test]
fn keeps_strings_and_comments() {
    check_kept("/// dbg!(x)\nfn f() { g(\"dbg!(x)\", r\"dbg!(x)\", r#\"\"dbg!(x)\"\"#) } // dbg!(x)");
}

#[test]
fn rewrites_the_bodies_of_macros() {
    let text =
        "macro_rules! m { (dbg!($x:expr)) => { dbg!($x); $crate::dbg!($x.y) }; ($($x:tt)*) => { dbg!($($x)*) } }";
    let expected = "macro_rules! m { (dbg!($x:expr)) => { ($x); ($x.y) }; ($($x:tt)*) => { dbg!($($x)*) } }";
    check(text, expected, 2);
}

#[test]
fn keeps_a_slash_and_a_comment_apart() {
    check("fn f() { a /dbg!/* b */(c) }", "fn f() { a / /* b */(c) }", 1);
}

#[test]
fn text_that_does_not_parse_is_an_error() {
    let error = fix("a.rs", "fn f() { dbg!(x }", Columns::Characters).unwrap_err();
    assert_eq!(error, "a.rs:1:17: error: the innermost opener waits for another closer");
}
