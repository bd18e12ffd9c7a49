// Made from crates/item_headers_tests/src/rows.rt by dev/erase: change that file, not this one.

use crate::shim::prelude::{AllocGlobal, Grow, GrowText, HostRuntime, format};

// Items, and the printed text of each call for them. The text is parsed again.
use proved_tokens::declarations::{ItemKind, TypeItem, parse_item, parse_type_item, split_expression};
use proved_tokens::item_headers::{
    HeaderError, impl_generics, impl_header, impl_header_where, turbofish, type_generics,
    where_clause, where_clause_with, where_clause_with_bound,
};
use proved_tokens::proc_macro2::{Delimiter, Group, SourceMap, TokenStream, TokenTree};
use crate::shim::fmt::Debug;
use crate::shim::process::Abort;

// These functions return no errors, and stop the test if memory runs out, because each `?` in a test makes its proof
// longer. For the same reason tests let go of streams by `release`.

/// Drops the value.
fn release<T>(value: T) {
    let _value = value;
}

/// Asserts that the answer for a text is the expected one.
fn check_answer<T: PartialEq + Debug>(rt: &impl Abort, text: &str, answer: &T, want: &T) {
    assert!(answer == want, "{answer:?} and not {want:?} of {text:?}");
}

/// The stream of the text, which parses and is the first file of a new map.
fn parsed(rt: &(impl Abort + AllocGlobal), text: &str) -> TokenStream {
    TokenStream::from_str(text, &mut SourceMap::new()).expect(text)
}

/// An item, and the printed text of each call with the trait `Z<'b>`, the predicate `X: Y` and the bound `Z<'b>`. A
/// header is `front` and a where clause.
#[derive(Clone, Copy)]
struct Row {
    item: &'static str,
    impl_generics: &'static str,
    type_generics: &'static str,
    turbofish: &'static str,
    where_clause: &'static str,
    with: &'static str,
    bound: &'static str,
    front: &'static str,
}

const ROWS: &[Row] = &[
    Row {
        item: "struct S;",
        impl_generics: "",
        type_generics: "",
        turbofish: "",
        where_clause: "",
        with: "where X : Y",
        bound: "",
        front: "impl Z <'b > for S",
    },
    Row {
        item: "struct S<>() where;",
        impl_generics: "",
        type_generics: "",
        turbofish: "",
        where_clause: "",
        with: "where X : Y",
        bound: "",
        front: "impl Z <'b > for S",
    },
    // Defaults and the last commas are left out.
    Row {
        item: "struct S<'a, T: A<B>= C, const N: usize = { 3 }, U,> where T: D, { t: T }",
        impl_generics: "< 'a , T : A < B >, const N : usize , U >",
        type_generics: "< 'a , T , N , U >",
        turbofish: ":: < 'a , T , N , U >",
        where_clause: "where T : D",
        with: "where T : D , X : Y",
        bound: "where T : D , T : Z <'b > , U : Z <'b >",
        front: "impl < 'a , T : A < B >, const N : usize , U > Z <'b > for S < 'a , T , N , U >",
    },
    // The where clause of a tuple struct is after its fields.
    Row {
        item: "pub struct W<T = u8, const B: bool = true>(pub T, [T; 2]) where T: Copy + 'static, [T; 2]:;",
        impl_generics: "< T , const B : bool >",
        type_generics: "< T , B >",
        turbofish: ":: < T , B >",
        where_clause: "where T : Copy + 'static , [T ; 2] :",
        with: "where T : Copy + 'static , [T ; 2] : , X : Y",
        bound: "where T : Copy + 'static , [T ; 2] : , T : Z <'b >",
        front: "impl < T , const B : bool > Z <'b > for W < T , B >",
    },
    // Attributes are kept.
    Row {
        item: "enum E<#[a] 'a: 'b + 'c, 'b, r#fn> { A(&'a r#fn) }",
        impl_generics: "< # [a] 'a : 'b + 'c , 'b , r#fn >",
        type_generics: "< 'a , 'b , r#fn >",
        turbofish: ":: < 'a , 'b , r#fn >",
        where_clause: "",
        with: "where X : Y",
        bound: "where r#fn : Z <'b >",
        front: "impl < # [a] 'a : 'b + 'c , 'b , r#fn > Z <'b > for E < 'a , 'b , r#fn >",
    },
    Row {
        item: "union U<T: for<'a> Fn(&'a u8) -> Vec<T>> where for<'b> [T; { 1 }]: A + 'b, Vec<T>: B<C, D> {}",
        impl_generics: "< T : for <'a > Fn (&'a u8) -> Vec < T >>",
        type_generics: "< T >",
        turbofish: ":: < T >",
        where_clause: "where for <'b > [T ; { 1 }] : A + 'b , Vec < T >: B < C , D >",
        with: "where for <'b > [T ; { 1 }] : A + 'b , Vec < T >: B < C , D > , X : Y",
        bound: "where for <'b > [T ; { 1 }] : A + 'b , Vec < T >: B < C , D > , T : Z <'b >",
        front: "impl < T : for <'a > Fn (&'a u8) -> Vec < T >> Z <'b > for U < T >",
    },
];

fn check_printed(
    rt: &(impl Abort + AllocGlobal),
    row: Row,
    found: Result<TokenStream, HeaderError>,
    wanted: &str,
) {
    let stream = found.expect(row.item);
    let text = format!("{stream}").expect(row.item);
    check_answer(rt, row.item, &text.as_str(), &wanted);
    release(stream);
}

fn header_text(rt: &(impl Abort + AllocGlobal), row: Row, clause: &str) -> String {
    let mut text = String::from_str_fallibly(row.front).expect(row.front);
    if !clause.is_empty() {
        text.push_fallibly(' ').expect(row.front);
        text.push_str_fallibly(clause).expect(clause);
    }
    text
}

fn check_parts(rt: &(impl Abort + AllocGlobal), row: Row, item: &TypeItem<'_>) {
    check_printed(rt, row, impl_generics(item), row.impl_generics);
    check_printed(rt, row, type_generics(item), row.type_generics);
    check_printed(rt, row, turbofish(item), row.turbofish);
    check_printed(rt, row, where_clause(item), row.where_clause);
}

/// Asserts that the header is the front of the row and this where clause.
fn check_header(
    rt: &(impl Abort + AllocGlobal),
    row: Row,
    header: Result<TokenStream, HeaderError>,
    clause: &str,
) {
    let wanted = header_text(rt, row, clause);
    check_printed(rt, row, header, wanted.as_str());
}

fn check_bounds(
    rt: &(impl Abort + AllocGlobal),
    row: Row,
    item: &TypeItem<'_>,
    path: &TokenStream,
) {
    check_header(rt, row, impl_header(item, path), row.where_clause);
    let clause = where_clause_with_bound(item, path).expect(row.item);
    let header = impl_header_where(item, path, &clause);
    check_header(rt, row, header, row.bound);
    check_printed(rt, row, Ok(clause), row.bound);
}

/// Asserts what each call gives for the item of the row.
fn check_row(
    rt: &(impl Abort + AllocGlobal),
    row: Row,
    predicate: &TokenStream,
    path: &TokenStream,
) {
    let stream = parsed(rt, row.item);
    let item = parse_type_item(stream.trees()).expect(row.item);
    check_parts(rt, row, &item);
    let clause = where_clause_with(&item, predicate);
    check_printed(rt, row, clause, row.with);
    check_bounds(rt, row, &item, path);
    release(stream);
}

#[test]
fn an_impl_has_the_parameters_of_its_type() {
    let rt = HostRuntime;
    let predicate = parsed(&rt, "X: Y");
    let path = parsed(&rt, "Z<'b>");
    for &row in ROWS {
        check_row(&rt, row, &predicate, &path);
    }
    release((predicate, path));
}

/// Asserts that the calls give the same trees for an item with the parameters and the where clause that were written.
fn check_written_again(rt: &(impl Abort + AllocGlobal), row: Row) {
    let text = format!("enum E {} {} {{}}", row.impl_generics, row.where_clause);
    let text = text.expect(row.item);
    let stream = parsed(rt, text.as_str());
    let item = parse_type_item(stream.trees()).expect(text.as_str());
    check_parts(rt, row, &item);
    release((text, stream));
}

/// Asserts that a header with braces is one `impl`.
fn check_impl(rt: &(impl Abort + AllocGlobal), row: Row, clause: &str) {
    let mut text = header_text(rt, row, clause);
    text.push_str_fallibly(" {}").expect(row.item);
    let stream = parsed(rt, text.as_str());
    let item = parse_item(stream.trees()).expect(text.as_str());
    let found = (item.kind, item.body().is_some());
    check_answer(rt, text.as_str(), &found, &(ItemKind::Impl, true));
    release((text, stream));
}

/// Asserts that the type with its parameters is the path of an expression.
fn check_expression(rt: &(impl Abort + AllocGlobal), row: Row) {
    let text = format!("S {}::new()", row.turbofish).expect(row.item);
    let stream = parsed(rt, text.as_str());
    let (_, rest) = split_expression(stream.trees()).expect(text.as_str());
    check_answer(rt, text.as_str(), &rest.len(), &0);
    release((text, stream));
}

#[test]
fn what_is_written_is_read_as_it_was_meant() {
    let rt = HostRuntime;
    for &row in ROWS {
        check_written_again(&rt, row);
        check_impl(&rt, row, row.where_clause);
        check_impl(&rt, row, row.bound);
        check_expression(&rt, row);
    }
}

/// Asserts that the parameters or the where clause of the item are a fault.
fn is_a_fault(rt: &impl Abort, what: &str, found: Result<TokenStream, HeaderError>) {
    let is_fault = matches!(&found, Err(HeaderError::Fault(_)));
    release(found);
    check_answer(rt, what, &is_fault, &true);
}

#[test]
fn parts_that_are_no_parameters_are_a_fault() {
    let rt = HostRuntime;
    let stream = parsed(&rt, "struct S<T>(T) where T: A;");
    let text = parsed(&rt, "where T");
    let mut item = parse_type_item(stream.trees()).expect("S");
    item.generics = item.where_clause;
    is_a_fault(&rt, "no brackets", impl_generics(&item));
    item.where_clause = text.trees();
    is_a_fault(&rt, "no bounds", where_clause(&item));
    release((stream, text));
}

/// The delimiter of the second of four trees, which is a group among three words, and the number of trees in it.
fn second_of(trees: &[TokenTree]) -> Option<(Delimiter, usize)> {
    match trees {
        [
            TokenTree::Ident(_),
            TokenTree::Group(group),
            TokenTree::Ident(_),
            TokenTree::Ident(_),
        ] => Some((group.delimiter(), group.stream_ref().trees().len())),
        _ => None,
    }
}

/// The stream of the text's trees in a group without delimiters.
fn in_a_group(rt: &(impl Abort + AllocGlobal), text: &str) -> TokenStream {
    let group = TokenTree::Group(Group::new(Delimiter::None, parsed(rt, text)));
    TokenStream::from_tree(group).expect(text)
}

#[test]
fn a_group_without_delimiters_is_put_in_as_it_is() {
    let rt = HostRuntime;
    let stream = parsed(&rt, "struct S;");
    let item = parse_type_item(stream.trees()).expect("struct S;");
    let path = in_a_group(&rt, "a::B");
    let header = impl_header(&item, &path).expect("a::B");
    let found = second_of(header.trees());
    check_answer(&rt, "a::B", &found, &Some((Delimiter::None, 4)));
    release((stream, path, header));
}
