// Made from crates/declarations_tests/src/tests/files.rt by dev/erase: change that file, not this one.

use crate::shim::prelude::HostRuntime;

// The items of each text.
use crate::declarations_tests::tests::checks::{Answer, Reads, check, check_text};
use proved_tokens::declarations::{AnyItem, Items, parse_file, parse_item};
use proved_tokens::proc_macro2::TokenTree;

/// Writes the kind of an item and, if it has braces with items, the number of trees of those items.
fn put_item(out: &mut Answer, item: &AnyItem<'_>) {
    out.debug(&item.kind);
    if let Some(group) = item.body() {
        match parse_file(group.stream_ref().trees()) {
            Ok(body) => out.count(", items", body.items.left.len()),
            Err(fault) => out.error(&fault),
        }
    }
}

/// Writes each of the items.
fn put_items(out: &mut Answer, items: Items<'_>) {
    for item in items {
        out.separate();
        match item {
            Ok(item) => put_item(out, &item),
            Err(fault) => out.error(&fault),
        }
    }
}

/// A file: the trees in its inner attributes, and its items.
pub struct File;

impl Reads for File {
    fn put(&self, trees: &[TokenTree], out: &mut Answer) {
        match parse_file(trees) {
            Ok(file) => {
                out.count("inner", file.inner.len());
                put_items(out, file.items);
            }
            Err(fault) => out.error(&fault),
        }
    }
}

/// An item that is all of the trees.
struct WholeItem;

impl Reads for WholeItem {
    fn put(&self, trees: &[TokenTree], out: &mut Answer) {
        match parse_item(trees) {
            Ok(item) => put_item(out, &item),
            Err(fault) => out.error(&fault),
        }
    }
}

/// The items that the iterator gives.
struct EachItem;

impl Reads for EachItem {
    fn put(&self, trees: &[TokenTree], out: &mut Answer) {
        put_items(out, Items { left: trees })
    }
}

#[test]
fn a_file_has_inner_attributes_and_items() {
    let rt = HostRuntime;
    check_text(
        &rt,
        &File,
        "//! a\n#![b] fn f() { x } mod m { #![c] struct S; } mod n; impl A { fn g(); }",
        "inner 6; Function; Module, items 3; Module; Impl, items 4",
    );
    check(
        &rt,
        &File,
        "
        => inner 0
        #![a] => inner 3
        trait T { type A; } extern \"C\" { static X: u8; } m! { fn f() {} } => \
            inner 0; Trait, items 3; ExternBlock, items 5; MacroCall
        gen fn f() {} trait T { gen fn f(); const gen: u8; } impl T for S { async gen fn f() {} gen! {} } => \
            inner 0; Function; Trait, items 10; Impl, items 9
        const trait T { fn f(); } pub const trait U: A {} const X: u8 = 1; => \
            inner 0; Trait, items 4; Trait, items 0; Constant
        ",
    );
}

#[test]
fn a_fault_is_counted_from_the_front_of_the_file() {
    let rt = HostRuntime;
    check(
        &rt,
        &File,
        "
        fn f() {} struct S; => inner 0; Function; Struct
        #![a] fn f() {} fn g fn => error at 9
        #![a] struct S; #[b] => missing after 8
        #! a => error at 2
        fn f() {} #![a] => error at 4
        ",
    );
}

#[test]
fn an_item_is_all_of_the_trees() {
    let rt = HostRuntime;
    check(
        &rt,
        &WholeItem,
        "
        #[a] fn f() {} => Function
        fn f() {} fn => error at 4
        => missing after 0
        ",
    );
}

#[test]
fn nothing_comes_after_a_fault() {
    let rt = HostRuntime;
    check(
        &rt,
        &EachItem,
        "
        fn f() {} struct S; use a; => Function; Struct; Use
        fn f() {} struct S fn g() {} use a; => Function; error at 2
        ",
    );
}
