//! What errors in items and their parts say was expected.

use proved_tokens::declarations::Fault;
use proved_tokens::items::{
    after_where, check_entries, parse_entry, parse_field, parse_item, parse_type_item, parse_variant, split_attributes,
    split_expression, split_generics, split_type, split_where, within_generics, Entries,
};
use proved_tokens::{Delimiter, Group, TokenStream, TokenTree};

/// The text of the call's error for these trees.
fn text_of<T>(call: impl Fn(&[TokenTree]) -> Result<T, Fault>, text: &str) -> String {
    let stream: TokenStream = text.parse().expect("the delimiters match");
    let error = call(stream.trees()).err();
    error.unwrap_or_else(|| panic!("{text:?} has no error")).to_string()
}

/// Each row has a text and what its error says.
fn check<T>(call: impl Fn(&[TokenTree]) -> Result<T, Fault>, rows: &[(&str, &str)]) {
    for (text, wanted) in rows {
        assert_eq!(text_of(&call, text), *wanted, "{text:?}");
    }
}

#[test]
fn an_error_in_a_field_or_variant_says_what_was_expected() {
    check(|trees| parse_field(trees).map(|_| ()), &[
        ("x u8", "expected `:`"),
        ("x = 1", "expected `:`"),
        ("x:, y: u8", "expected a type"),
        ("1: u8", "expected a name, a visibility or an attribute"),
        ("pub: u8", "expected a name or `(crate)`"),
        ("#derive(A) x: u8", "expected `[`"),
        ("x: HashMap<u8 u8>", "expected `,`, `>`, `:` or `=`, among others"),
        ("x", "the declaration ends too early, expected `:`"),
        ("x:", "the declaration ends too early, expected a type"),
    ]);
    check(|trees| parse_variant(trees).map(|_| ()), &[
        ("-1", "expected a name, a visibility or an attribute"),
        ("A =, B", "expected an expression"),
        ("A = 1 +", "the declaration ends too early, expected an expression"),
    ]);
}

#[test]
fn an_error_in_a_struct_enum_or_union_says_what_was_expected() {
    check(|trees| parse_type_item(trees).map(|_| ()), &[
        ("fn f() {}", "expected a struct, an enum or a union"),
        ("pub x S;", "expected `struct`, `enum`, `union` or `(crate)`"),
        ("struct {}", "expected a name"),
        ("struct S {} x", "expected the end"),
        ("enum E;", "expected `{`, `where` or `<`"),
        ("struct S<T U>;", "expected `,`, `>`, `:` or `=`"),
        ("struct S<T: A B>;", "expected `,`, `>`, `=` or more of the type"),
        ("struct S<const N>;", "expected `:`"),
        ("struct S<1>;", "expected `>` or a generic parameter"),
        ("struct S<T> where T {}", "expected `:` or more of the type"),
        ("struct S where T: A = B;", "expected `,`, `;`, `{` or more of the type"),
        ("struct S", "the declaration ends too early, expected `;`, `{`, `where` or `(`, among others"),
        ("struct S(u8)", "the declaration ends too early, expected `;` or `where`"),
    ]);
}

#[test]
fn an_error_in_an_item_says_what_was_expected() {
    check(|trees| parse_item(trees).map(|_| ()), &[
        ("let x = 1;", "expected an item"),
        ("foo bar", "expected `::` or `!`"),
        ("pub 1", "expected an item or `(crate)`"),
        ("fn (x) {}", "expected a name"),
        ("fn f {}", "expected `(` or `<`"),
        ("fn f() u8 {}", "expected `;`, `{`, `where` or `->`"),
        ("fn f() -> {}", "expected a type"),
        ("fn f() -> u8 x", "expected `;`, `{`, `where` or more of the type"),
        ("async x", "expected a function"),
        ("impl A B {}", "expected `{`, `where`, `for` or more of the type"),
        ("trait T;", "expected `:`, `=`, `{` or `where`, among others"),
        ("use 1;", "expected a name, `{`, `::` or `*`"),
        ("const A = 1;", "expected `:` or `<`"),
        ("const A: u8 = 1", "the declaration ends too early, expected `;` or more of the expression"),
        ("mod m", "the declaration ends too early, expected `;` or `{`"),
        ("#[a]", "the declaration ends too early, expected an item"),
    ]);
}

#[test]
fn an_error_in_a_part_says_what_was_expected() {
    check(|trees| split_type(trees).map(|_| ()), &[
        ("", "the declaration ends too early, expected a type"),
        ("&", "the declaration ends too early, expected a type"),
        ("u8!", "the declaration ends too early, expected a group"),
    ]);
    check(|trees| split_expression(trees).map(|_| ()), &[
        ("", "the declaration ends too early, expected an expression"),
        ("1 +", "the declaration ends too early, expected an expression"),
    ]);
    check(|trees| split_attributes(trees).map(|_| ()), &[("#(a)", "expected `[`")]);
    check(|trees| split_generics(trees).map(|_| ()), &[("<'a 'b>", "expected `,`, `>` or `:`")]);
    check(|trees| split_where(trees).map(|_| ()), &[("where T A", "expected `:` or more of the type")]);
}

#[test]
fn an_error_within_a_group_says_what_was_expected_at_its_end() {
    let stream: TokenStream = "(&)".parse().expect("the delimiters match");
    let Some(TokenTree::Group(group)) = stream.trees().first() else { panic!("it is a group") };
    let Err(error) = split_type(group.stream_ref().trees()) else { panic!("the type is missing") };
    assert_eq!(error.within(group).to_string(), "expected a type");
}

#[test]
fn an_error_of_generics_or_a_where_clause_names_what_is_missing() {
    check(|trees| within_generics(trees).map(|_| ()), &[
        ("T", "expected `<`"),
        ("<T", "the declaration ends too early, expected `>`"),
    ]);
    check(|trees| after_where(trees).map(|_| ()), &[("T: A", "expected `where`")]);
}

/// The text of the error of these entries, of which `skip` is known. It is the same as that of `Entries`.
fn entries_text(trees: &[TokenTree]) -> String {
    let error = check_entries(trees, &["skip"]).expect_err("it has an error");
    let fault = Entries { left: trees }.find_map(Result::err).expect("an entry has an error");
    assert_eq!(error.expected().to_string(), fault.expected().to_string());
    assert_eq!(error.to_string(), fault.to_string());
    error.to_string()
}

/// The trees of the text in a group without delimiters, as a macro by example passes them, and then those after it.
fn held(inside: &str, after: &str) -> TokenStream {
    let inside = Group::new(Delimiter::None, inside.parse().expect("the delimiters match"));
    let after: TokenStream = after.parse().expect("the delimiters match");
    std::iter::once(TokenTree::from(inside)).chain(after).collect()
}

#[test]
fn an_error_of_entries_says_what_was_expected() {
    check(|trees| parse_entry(trees).map(|_| ()), &[
        ("a::5", "expected a name"),
        ("a = = 1", "expected an expression"),
        ("- a", "expected a literal"),
    ]);
    for (text, wanted) in [
        ("skip, = 1", "expected an entry"),
        ("skip = , a", "expected an expression"),
        ("skip =", "the declaration ends too early, expected an expression"),
        ("skip(a) b", "expected `,` or the end"),
    ] {
        let stream: TokenStream = text.parse().expect("the delimiters match");
        assert_eq!(entries_text(stream.trees()), wanted, "{text:?}");
    }
    for (inside, after, wanted) in [
        ("skip = ", "", "expected an expression"),
        ("skip a", "", "expected `=`, a group, `::` or the end"),
        ("skip", "a", "expected `,`, `=`, a group or the end"),
        ("skip = 1", "= 2", "expected `,` or the end"),
    ] {
        assert_eq!(entries_text(held(inside, after).trees()), wanted, "{inside:?} and then {after:?}");
    }
    let unknown: TokenStream = "a = 1".parse().expect("the delimiters match");
    let error = check_entries(unknown.trees(), &["skip"]).expect_err("it is unknown");
    assert_eq!((error.expected().to_string(), error.expected().has_end()), (String::new(), false));
}
