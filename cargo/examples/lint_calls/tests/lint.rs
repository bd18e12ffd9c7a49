//! What `lint` reports.

use lint_calls::{lint, Columns};

/// Checks the findings in a text, without the name of the file.
#[track_caller]
fn check(text: &str, expected: &[&str]) {
    let lines = lint("a.rs", text, Columns::Characters).unwrap();
    let expected: Vec<_> = expected.iter().map(|line| format!("a.rs:{line}")).collect();
    assert_eq!(lines, expected);
}

/// Checks the message for a text that does not parse.
#[track_caller]
fn check_error(text: &str, expected: &str) {
    assert_eq!(lint("a.rs", text, Columns::Characters).unwrap_err(), expected);
}

#[test]
fn finds_each_debug_macro() {
    let expected = [
        "1:10: debug-macro: a call of `dbg!`",
        "1:19: debug-macro: a call of `todo!`",
        "1:28: debug-macro: a call of `unimplemented!`",
    ];
    check("fn f() { dbg!(1); todo![]; unimplemented! {} }", &expected);
}

#[test]
fn finds_macros_after_paths_and_raw_names() {
    let expected = [
        "1:15: debug-macro: a call of `dbg!`",
        "1:34: debug-macro: a call of `todo!`",
        "1:43: debug-macro: a call of `dbg!`",
    ];
    check("fn f() { std::dbg!(1); ::core :: todo!(); r#dbg!(2) }", &expected);
}

#[test]
fn finds_macros_inside_of_macros() {
    let expected = ["1:20: debug-macro: a call of `dbg!`", "2:11: debug-macro: a call of `todo!`"];
    check("fn f() { g!(a, [h!(dbg!(1))]) }\nm! { x => todo!() }", &expected);
}

#[test]
fn finds_macros_in_the_body_of_a_macro() {
    check("macro_rules! m {\n    ($x:expr) => { dbg!($x) };\n}", &["2:20: debug-macro: a call of `dbg!`"]);
}

#[test]
fn passes_over_comments_strings_and_docs() {
    let text = "/// dbg!(1)\n/** todo!() */\nfn f() { /* dbg!(2) */ g(\"dbg!(3)\", b\"todo!()\") } // dbg!(4)\n";
    check(text, &[]);
}

#[test]
fn passes_over_raw_strings() {
    check(
        r####"fn f() { g(r"dbg!(x)", r##"a "# dbg!(x)"##, br#"todo!()"#); dbg!(y) }"####,
        &["1:61: debug-macro: a call of `dbg!`"],
    );
}

#[test]
fn passes_over_definitions_and_other_uses_of_the_names() {
    let text = "macro_rules! dbg { () => {} }\nuse std::{dbg, todo};\nfn f() { todo(dbg != (1), dbg.dbg, &dbg) }";
    check(text, &[]);
}

#[test]
fn passes_over_lifetimes_and_variables() {
    check("macro_rules! m { ($dbg:ident) => { $dbg!(1) } }\nm!(&'dbg ! {});", &[]);
}

#[test]
fn finds_allow_without_reason() {
    let expected = [
        "1:1: allow-without-reason: an `allow` without a reason",
        "2:5: allow-without-reason: an `allow` without a reason",
        "3:10: allow-without-reason: an `allow` without a reason",
    ];
    check("#![allow(unused)]\n    #[allow()]\nfn f() { #[allow(dead_code, clippy::all)] let a = 1; }", &expected);
}

#[test]
fn passes_over_allow_with_reason_and_other_attributes() {
    check(
        "#![allow(unused, reason = \"old\")]\n#[allow(reason = r#\"a\"#, a, )]\n#[expect(a)]\nfn f() { allow(1) }",
        &[],
    );
    check("/// #[allow(a)]\n#[cfg_attr(test, allow(a))]\nfn f() {}", &[]);
}

#[test]
fn reason_must_be_an_entry_with_a_string() {
    let line = |line| format!("{line}:1: allow-without-reason: an `allow` without a reason");
    let expected: Vec<_> = (1..=4).map(line).collect();
    let text =
        "#[allow(reason)]\n#[allow(reason = 1)]\n#[allow(a(reason = \"b\"))]\n#[allow(reason = b\"c\")]\nfn f() {}";
    check(text, &expected.iter().map(String::as_str).collect::<Vec<_>>());
}

#[test]
fn reason_may_have_a_line_end_of_two_characters() {
    check("#[allow(a, reason = \"b\r\n c \\\r\n d\")]\r\nfn f() {}", &[]);
}

#[test]
fn finds_allow_in_the_body_of_a_macro() {
    let text = "macro_rules! m { ($l:ident) => { #[allow($l, reason = \"a\")] #[allow($l)] fn f() {} } }";
    check(text, &["1:61: allow-without-reason: an `allow` without a reason"]);
}

#[test]
fn counts_parameters_and_the_receiver() {
    let text = "impl S {\n    fn six(&self, a: A, b: A, c: A, d: A, e: A) {}\n\
        \x20   fn seven(&mut self, a: A, b: A, c: A, d: A, e: A, f: A,);\n}";
    check(text, &["3:8: many-parameters: `seven` has 7 parameters, more than 6"]);
}

#[test]
fn counts_parameters_in_traits_modules_blocks_and_bodies() {
    let seven = "(a: A, b: A, c: A, d: A, e: A, f: A, g: A)";
    let text = format!("trait T {{ fn f{seven}; }}\nmod m {{ mod n {{ pub async fn r#fn{seven} {{}} }} }}\n")
        + &format!("extern \"C\" {{\n fn g{seven}; }}\nfn h() {{ x(|| {{ fn i{seven} {{}} }}) }}");
    let expected = [
        "1:14: many-parameters: `f` has 7 parameters, more than 6",
        "2:30: many-parameters: `r#fn` has 7 parameters, more than 6",
        "4:5: many-parameters: `g` has 7 parameters, more than 6",
        "5:20: many-parameters: `i` has 7 parameters, more than 6",
    ];
    check(&text, &expected);
}

#[test]
fn commas_inside_of_types_and_patterns_are_no_parameters() {
    let text =
        "fn f<A, B: C<A, A>>(a: M<A, B>, b: fn(A, B) -> V<A, B>, (c, d): (A, B), S::<A, B> { x, y }: S<A, B>) {}";
    check(text, &[]);
    check("fn f(a: <T as U<A, B>>::C, b: impl Fn(A) -> M<A, B>, c: [A; { 1 < 2 }], #[x(a, b)] d: &'a A) {}", &[]);
    check("fn f(self::P { x, .. }: P, A::<u8, u8>::B..=C: A, a: A, b: A, c: A, d: A) {}", &[]);
}

#[test]
fn function_types_and_macros_have_no_functions() {
    check("type F = fn(A, A, A, A, A, A, A);\nm! { fn f(a: A, b: A, c: A, d: A, e: A, f: A, g: A) {} }", &[]);
}

#[test]
fn finds_fields_without_docs() {
    let text = "pub struct S<T> where T: A<B> {\n    pub a: T,\n    /// b\n    pub b: T,\n\
        \x20   #[doc = \"c\"] pub c: T,\n    #[x]\n    pub r#type: T,\n}";
    let expected = [
        "2:9: missing-docs: a public field without a doc comment",
        "7:9: missing-docs: a public field without a doc comment",
    ];
    check(text, &expected);
}

#[test]
fn finds_tuple_fields_without_docs() {
    let text = "pub struct S(pub ::std::A, #[doc(hidden)] pub (u8, u8), /** c */ pub u8, u8);";
    let expected = [
        "1:18: missing-docs: a public field without a doc comment",
        "1:47: missing-docs: a public field without a doc comment",
    ];
    check(text, &expected);
}

#[test]
fn private_fields_and_structs_need_no_docs() {
    check("pub struct S { a: u8, pub(crate) b: u8, pub(in a) c: u8 }", &[]);
    check(
        "struct S { pub a: u8 }\npub(crate) struct T(pub u8);\npub union U { pub a: u8 }\npub enum E { A { a: u8 } }",
        &[],
    );
}

#[test]
fn finds_option_in_option() {
    let text =
        "struct S {\n    a: Option<Option<u8>>,\n    b: std::option::Option<::core::option::Option<Vec<u8>>,>,\n}";
    let expected =
        ["2:15: option-option: an `Option` in an `Option`", "3:28: option-option: an `Option` in an `Option`"];
    check(text, &expected);
    check("struct S(pub Option<(A, B)>, Option::<Option<u8>>);", &["1:39: option-option: an `Option` in an `Option`"]);
}

#[test]
fn other_types_are_no_option_in_option() {
    check("struct S { a: Option<u8>, b: Option<Vec<Option<u8>>>, c: Option, d: &'a u8, e: Option<Option> }", &[]);
    check("enum E { A(Option<Option<u8>>) }\nfn f(a: Option<Option<u8>>) {}", &[]);
}

#[test]
fn structs_in_macros_are_not_read() {
    check("macro_rules! m { ($n:ident) => { pub struct S { $n: u8, pub a: Option<Option<u8>> } } }", &[]);
    check("macro m($n:ident) { struct S { $n: u8 } }\nmacro n { () => { struct S { $ } } }", &[]);
}

#[test]
fn findings_are_in_the_order_of_the_text() {
    let text = "pub struct S {\n  #[allow(a)] pub a: Option<Option<[u8; dbg!(1)]>>,\n}\nfn f() { todo!() }\n";
    let expected = [
        "2:3: allow-without-reason: an `allow` without a reason",
        "2:19: missing-docs: a public field without a doc comment",
        "2:29: option-option: an `Option` in an `Option`",
        "2:41: debug-macro: a call of `dbg!`",
        "4:10: debug-macro: a call of `todo!`",
    ];
    check(text, &expected);
}

#[test]
fn lines_may_end_with_two_characters() {
    check("/// a\r\nfn f() {\r\n    dbg!(1)\r\n}\r\n", &["3:5: debug-macro: a call of `dbg!`"]);
}

#[test]
fn byte_order_mark_is_no_column() {
    check(
        "\u{feff}m!(dbg!(1));\ntodo!();",
        &["1:4: debug-macro: a call of `dbg!`", "2:1: debug-macro: a call of `todo!`"],
    );
}

#[test]
fn columns_count_characters_or_utf16() {
    let text = "fn f() {}\nm!(\"😀é😀\", dbg!(1));";
    check(text, &["2:11: debug-macro: a call of `dbg!`"]);
    let lines = lint("a.rs", text, Columns::Utf16).unwrap();
    assert_eq!(lines, ["a.rs:2:13: debug-macro: a call of `dbg!`"]);
}

#[test]
fn columns_of_errors_count_utf16_too() {
    let error = lint("a.rs", "\u{feff}fn f() { \"😀\" ]", Columns::Utf16).unwrap_err();
    assert_eq!(error, "a.rs:1:15: error: the innermost opener waits for another closer");
}

#[test]
fn line_of_a_script_is_skipped() {
    check("#!/usr/bin/env dbg!(1)\ntodo!();", &["2:1: debug-macro: a call of `todo!`"]);
    check("\u{feff}#!a 'b\r\ntodo!();", &["2:1: debug-macro: a call of `todo!`"]);
}

#[test]
fn texts_without_tokens_have_no_findings() {
    for text in ["", "\u{feff}", "\r\n", "// dbg!(1)", "#!a"] {
        check(text, &[]);
    }
}

#[test]
fn errors_have_a_place_and_a_reason() {
    check_error("fn f() {\r\n    g(1];\r\n}", "a.rs:2:8: error: the innermost opener waits for another closer");
    check_error("fn f() {\n    \"a", "a.rs:2:5: error: unclosed string");
    check_error("const A: u8 = 0b12;", "a.rs:1:18: error: this digit is too large for its number's base");
}

#[test]
fn texts_that_are_no_items_are_errors() {
    check_error("fn f() {}\nlet x;", "a.rs:2:1: error: expected an item");
    check_error("mod m { fn f }", "a.rs:1:14: error: expected `(` or `<`");
    check_error("struct S { a }", "a.rs:1:14: error: expected `:`");
    check_error("fn f\n", "a.rs:1:5: error: the declaration ends too early, expected `(` or `<`");
}
