// Made from crates/declarations_tests/src/tests/lists.rt by dev/erase: change that file, not this one.

use crate::shim::prelude::HostRuntime;

// Lists of fields and variants: the elements that come, and where the error is.
use crate::declarations_tests::tests::checks::{Answer, Reads, check};
use crate::declarations_tests::tests::items::{put_field, put_variant};
use proved_tokens::declarations::{Body, FieldList, VariantList, parse_type_item};
use proved_tokens::proc_macro2::TokenTree;

/// The fields or variants of a struct, an enum or a union.
struct Elements;

impl Reads for Elements {
    fn put(&self, trees: &[TokenTree], out: &mut Answer) {
        match parse_type_item(trees) {
            Ok(item) => match item.body {
                Body::Struct(fields) => put_fields(out, fields.list()),
                Body::Enum(group) => put_variants(out, VariantList::new(group)),
                Body::Union(group) => put_fields(out, FieldList::named(group)),
            },
            Err(fault) => out.error(&fault),
        }
    }
}

fn put_fields(out: &mut Answer, list: FieldList<'_>) {
    for field in list {
        out.separate();
        match field {
            Ok(field) => put_field(out, &field),
            Err(fault) => out.error(&fault),
        }
    }
}

fn put_variants(out: &mut Answer, list: VariantList<'_>) {
    for variant in list {
        out.separate();
        match variant {
            Ok(variant) => put_variant(out, &variant),
            Err(fault) => out.error(&fault),
        }
    }
}

#[test]
fn each_part_of_a_body_is_given_or_its_fault() {
    let rt = HostRuntime;
    check(
        &rt,
        &Elements,
        "
        struct S; =>
        struct S {} =>
        struct S { #[x] pub a: Vec<u8, u8>, b: fn() -> u8, } => a, type 6, attributes 2, visibility 1; b, type 5
        struct S(u8, pub (u8, u8), Vec<A, B>); => type 1; type 1, visibility 1; type 6
        struct S(pub(crate) u8,); => type 1, visibility 2
        union U { a: u8, b: u16 } => a, type 1; b, type 1
        enum E { A, B(u8), C { c: u8 } = f::<X, Y>(), } => A, unit; B, tuple; C, named, discriminant 9
        struct S { a: u8 b: u8 } => error at 3
        struct S { a: u8, , } => a, type 1; error at 0
        struct S { a: u8, b } => a, type 1; missing after 1
        struct S(u8, fn); => type 1; missing after 1
        enum E { A = 1 B } => error at 3
        enum E { A, B =, C } => A, unit; error at 2
        struct S { , } => error at 0
        ",
    );
}
