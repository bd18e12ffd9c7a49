// Made from crates/declarations_tests/src/tests/impls.rt by dev/erase: change that file, not this one.

use crate::shim::prelude::HostRuntime;

// The parts of impls. The expected numbers of trees are counted in the texts by hand.
use crate::declarations_tests::tests::checks::{Answer, Reads, check, check_text, check_trees, parsed};
use crate::declarations_tests::tests::files::File;
use proved_tokens::declarations::parse_impl;
use proved_tokens::proc_macro2::TokenTree;
use crate::test_helpers::release;

/// An `impl`: its trait, if it has one, its type, and its other parts.
struct Implementation;

impl Reads for Implementation {
    fn put(&self, trees: &[TokenTree], out: &mut Answer) {
        let item = match parse_impl(trees) {
            Ok(item) => item,
            Err(fault) => return out.error(&fault),
        };
        if let Some(path) = item.trait_path {
            out.count("trait", path.len());
            out.text(", ");
        }
        out.count("type", item.self_type.len());
        out.part("attributes", item.attributes.len());
        out.part("visibility", item.visibility.len());
        out.part("qualifiers", item.qualifiers.len());
        out.part("generics", item.generics.len());
        out.part("const", item.constness.len());
        out.part("negation", item.negation.len());
        out.part("where", item.where_clause.len());
    }
}

#[test]
fn a_trait_comes_before_for_and_the_type_after_it() {
    let rt = HostRuntime;
    check(
        &rt,
        &Implementation,
        "
        impl S {} => type 1
        impl A for S {} => trait 1, type 1
        impl a::A<B> for Vec<T> { fn f() {} } => trait 7, type 4
        impl<T> From<T> for S<T> where T: A {} => trait 4, type 4, generics 3, where 4
        impl Fn(A) -> B for S {} => trait 5, type 1
        impl A for Box<dyn B + 'a> {} => trait 1, type 8
        impl A for fn(B) -> C where C: D, {} => trait 1, type 5, where 5
        impl A for (B, C) {} => trait 1, type 1
        impl A for [T; 2] where {} => trait 1, type 1, where 1
        impl A for &'a mut S {} => trait 1, type 5
        impl A for ! {} => trait 1, type 1
        impl A for <T as B>::C {} => trait 1, type 8
        impl m!(A) for m![B] {} => trait 3, type 3
        impl (A) for S {} => trait 1, type 1
        impl dyn A + B {} => type 4
        impl S where Self: Sized {} => type 1, where 4
        ",
    );
}

#[test]
fn the_for_of_a_type_is_not_that_of_the_impl() {
    let rt = HostRuntime;
    check(
        &rt,
        &Implementation,
        "
        impl A for for<'a> fn(&'a B) {} => trait 1, type 7
        impl for<'a> A<'a> for S {} => trait 10, type 1
        impl for<'a> fn(&'a B) {} => type 7
        impl dyn for<'a> A<'a> {} => type 11
        impl A for dyn for<'a> B<'a> + C {} => trait 1, type 13
        impl A<for<'a> fn(&'a B)> for S {} => trait 10, type 1
        impl Fn(A) -> for<'a> fn(B) for S {} => trait 11, type 1
        impl A for B for C {} => error at 4
        impl A for {} => error at 3
        impl for A {} => error at 2
        impl 'a for<'b> fn() {} => type 9
        ",
    );
}

#[test]
fn a_less_sign_begins_generic_parameters_or_a_type() {
    let rt = HostRuntime;
    check(
        &rt,
        &Implementation,
        "
        impl<> S {} => type 1, generics 2
        impl<'a, T: A<B> = C, const N: usize = 3> S {} => type 1, generics 20
        impl<#[a] T> A for S {} => trait 1, type 1, generics 5
        impl<T, U> A for S {} => trait 1, type 1, generics 5
        impl<T = u8> S {} => type 1, generics 5
        impl<T> <T as A>::B {} => type 8, generics 3
        impl <T as A>::B {} => type 8
        impl <T as A>::B for S {} => trait 8, type 1
        impl <T<U>>::B {} => type 9
        impl <&'a T>::B {} => type 9
        impl <[T]>::B for S {} => trait 6, type 1
        // Here `<T>` are generic parameters, and `::B` is the type.
        impl <T>::B {} => type 3, generics 3
        // A type in brackets, and a second operand.
        impl <T::A> S {} => error at 7
        ",
    );
}

#[test]
fn attributes_a_visibility_and_qualifiers_come_first() {
    let rt = HostRuntime;
    check_text(
        &rt,
        &Implementation,
        "/// It is.\n#[a] pub default impl S {}",
        "type 1, attributes 4, visibility 1, qualifiers 1",
    );
    check(
        &rt,
        &Implementation,
        "
        unsafe impl A for S {} => trait 1, type 1, qualifiers 1
        default impl<T> A for T {} => trait 1, type 1, qualifiers 1, generics 3
        default unsafe impl A for S {} => trait 1, type 1, qualifiers 2
        pub impl S {} => type 1, visibility 1
        pub(crate) unsafe impl S {} => type 1, visibility 2, qualifiers 1
        #[a] #[b(c)] impl S {} => type 1, attributes 4
        unsafe default impl A for S {} => error at 1
        unsafe unsafe impl A for S {} => error at 1
        const impl A for S {} => error at 0
        #![a] impl S {} => error at 0
        ",
    );
}

#[test]
fn const_and_an_exclamation_mark_come_before_the_trait() {
    let rt = HostRuntime;
    check(
        &rt,
        &Implementation,
        "
        impl !A for S {} => trait 1, type 1, negation 1
        impl<T> !a::A for S<T> {} => trait 4, type 4, generics 3, negation 1
        impl const A for S {} => trait 1, type 1, const 1
        impl<T> const A for S {} => trait 1, type 1, generics 3, const 1
        impl const !A for S {} => trait 1, type 1, const 1, negation 1
        impl !A {} => type 1, negation 1
        impl const S {} => type 1, const 1
        impl ! {} => type 1
        impl<T> ! where T: A {} => type 1, generics 3, where 4
        impl const ! {} => type 1, const 1
        impl !! {} => type 1, negation 1
        impl ! + A {} => error at 2
        impl ! for S {} => error at 3
        impl ! -> A {} => error at 2
        ",
    );
}

#[test]
fn a_fault_is_before_the_first_tree_that_does_not_fit() {
    let rt = HostRuntime;
    check(
        &rt,
        &Implementation,
        "
        => missing after 0
        #[a] pub => missing after 3
        default unsafe => missing after 2
        impl => missing after 1
        impl<T => missing after 3
        impl<T> => missing after 4
        impl const => missing after 2
        impl ! => missing after 2
        impl A => missing after 2
        impl A for => missing after 3
        impl A for S => missing after 4
        impl A for S where T: => missing after 7
        impl {} => error at 1
        impl A for {} => error at 3
        impl A B {} => error at 2
        impl A for S; => error at 4
        impl A for S where T {} => error at 6
        impl S [] {} => error at 2
        impl A for S {} x => error at 5
        impl S {} impl T {} => error at 3
        impl S {}; => error at 3
        struct S; => error at 0
        unsafe trait A {} => error at 1
        fn f() {} => error at 0
        ",
    );
}

#[test]
fn a_group_without_delimiters_is_a_visibility_or_a_type() {
    let rt = HostRuntime;
    check(
        &rt,
        &Implementation,
        "
        «pub»impl S {} => type 1, visibility 1
        «»unsafe impl S {} => type 1, visibility 1, qualifiers 1
        «impl S {}» => error at 0
        «unsafe»impl S {} => error at 0
        ",
    );
}

// A macro by example passes `$t:ty` in such a group.
#[test]
fn a_group_without_delimiters_may_be_the_self_type() {
    let rt = HostRuntime;
    check(
        &rt,
        &Implementation,
        "impl A for«Vec<T>»{} => trait 1, type 1",
    );
}

// The body of an impl is no block, so rustc rejects `impl A $b` and `impl A for $b`, and so does the call.
#[test]
fn a_block_in_a_group_without_delimiters_is_no_body() {
    let rt = HostRuntime;
    check(
        &rt,
        &Implementation,
        "
        impl A«{ x }» => error at 2
        impl A for B where T: C,«{ x }» => error at 9
        impl A for«{ x }»{} => error at 3
        impl A<«{ x }»> for B {} => trait 4, type 1
        impl<const N: u8 =«{ x }»> A<N> {} => type 4, generics 8
        ",
    );
}

#[test]
fn parse_file_gives_the_items_of_the_body() {
    let rt = HostRuntime;
    let text = "impl A for S { #![a] type B = u8; const C: u8 = 1; pub fn f(&self) {} m!(); }";
    let stream = parsed(&rt, text);
    let item = parse_impl(stream.trees()).expect(text);
    check_trees(
        &rt,
        &File,
        item.body.stream_ref().trees(),
        text,
        "inner 3; TypeAlias; Constant; Function; MacroCall",
    );
    release(stream);
}
