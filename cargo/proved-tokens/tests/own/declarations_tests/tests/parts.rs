// Made from crates/declarations_tests/src/tests/parts.rt by dev/erase: change that file, not this one.

use crate::shim::prelude::HostRuntime;

// The part that each text begins with.
use crate::declarations_tests::tests::any_items::FirstItem;
use crate::declarations_tests::tests::checks::{Answer, Reads, check};
use proved_tokens::declarations::{
    split_attributes, split_bounds, split_expression, split_field, split_fields, split_generics,
    split_inner_attributes, split_item, split_tuple_field, split_tuple_fields, split_type,
    split_variant, split_variants, split_visibility, split_where,
};
use proved_tokens::proc_macro2::TokenTree;

/// A part that the trees begin with. The answer is the number of its trees.
enum Part {
    Type,
    Bounds,
    Attributes,
    Visibility,
    Field,
    Fields,
    TupleField,
    TupleFields,
    Variant,
    Variants,
    Expression,
    Generics,
    Where,
    Item,
    InnerAttributes,
}

impl Reads for Part {
    fn put(&self, trees: &[TokenTree], out: &mut Answer) {
        let found = match self {
            Part::Type => split_type(trees),
            Part::Bounds => split_bounds(trees),
            Part::Attributes => split_attributes(trees),
            Part::Visibility => split_visibility(trees),
            Part::Field => split_field(trees),
            Part::Fields => split_fields(trees),
            Part::TupleField => split_tuple_field(trees),
            Part::TupleFields => split_tuple_fields(trees),
            Part::Variant => split_variant(trees),
            Part::Variants => split_variants(trees),
            Part::Expression => split_expression(trees),
            Part::Generics => split_generics(trees),
            Part::Where => split_where(trees),
            Part::Item => split_item(trees),
            Part::InnerAttributes => split_inner_attributes(trees),
        };
        match found {
            Ok((part, _)) => out.number(part.len()),
            Err(fault) => out.error(&fault),
        }
    }
}

#[test]
fn a_type_ends_where_an_operand_stands_and_no_step_follows() {
    let rt = HostRuntime;
    check(
        &rt,
        &Part::Type,
        r#"
        Vec<A, B>, C => 6
        impl Fn(A) -> B where C: D => 6
        ! {} => 1
        m! { x } {} => 3
        &'static ! {} => 4
        Foo<{ N > 3 }> = x => 4
        Foo<-1, 'x', true>, => 9
        Vec<Vec<u8>>= x => 7
        dyn for<'a> Fn(&'a A) -> B, C => 11
        <T as U>::V {} => 8
        *const extern "C" fn(A) = x => 6
        Vec<u8, b: u8 => missing after 7
        A:: => missing after 3
        Foo<,> => error at 2
        Foo<A,,> => error at 4
        A + + B => 2
        Foo<'a, T: 'b + U,>, => 13
        * A => error at 1
        r#struct => 1
        struct => error at 0
        => missing after 0
        "#,
    );
    check(
        &rt,
        &Part::Bounds,
        "
        A + 'b = C => 4
        => 0
        ?Sized> => 2
        ",
    );
}

#[test]
fn parentheses_restrict_a_visibility_or_are_a_type() {
    let rt = HostRuntime;
    check(
        &rt,
        &Part::Visibility,
        "
        pub (A) x => 1
        pub(crate) x => 2
        pub(self) x => 2
        pub(super) x => 2
        pub(in a::b) x => 2
        pub(crate::a) x => 1
        pub(r#in a) x => 1
        pub[crate] x => 1
        crate x => 0
        ",
    );
    check(
        &rt,
        &Part::TupleFields,
        "pub (A, B), pub(crate) A, pub (crate::A), pub(in a::b) (A), crate::A => 18",
    );
    check(&rt, &Part::TupleField, "pub (crate) => missing after 2");
}

#[test]
fn groups_without_delimiters_are_what_they_hold() {
    let rt = HostRuntime;
    check(
        &rt,
        &Part::Visibility,
        "
        «»x => 1
        «pub»x => 1
        «pub(in a)»x => 1
        «pub (A)»x => 0
        «pub x»x => 0
        ",
    );
    check(
        &rt,
        &Part::TupleField,
        "
        «pub»(crate), B => 2
        «A», B => 1
        «» => missing after 1
        ",
    );
    check(&rt, &Part::Field, "«»a: u8, b => 4");
    check(&rt, &Part::Item, "«pub»struct S; => 4");
    check(
        &rt,
        &FirstItem,
        "
        «struct S;»fn => Group 1
        «»fn f() {} => Function 5 f
        ",
    );
    check(
        &rt,
        &Part::Expression,
        "
        «1 + 2»* 3, B => 3
        «{ 1 }»+ 1 => 3
        ",
    );
    check(&rt, &Part::Type, "«» => error at 0");
}

#[test]
fn fields_have_attributes_names_and_types() {
    let rt = HostRuntime;
    check(
        &rt,
        &Part::Attributes,
        "
        #[a] #[b(c)] pub x => 4
        #(a) => error at 1
        ",
    );
    check(
        &rt,
        &Part::Fields,
        "
        #[x] pub(crate) a: A, b: B, => 12
        a: u8 b: u8 => 3
        a: Vec<u8, b: u8 => missing after 9
        a, b: u8 => error at 1
        a: A, #[x] => missing after 6
        => 0
        ",
    );
    check(
        &rt,
        &Part::Field,
        "
        union: union, b: B => 3
        fn: A => error at 0
        => missing after 0
        ",
    );
    check(
        &rt,
        &Part::Variant,
        "
        #[a] B { c: D } = 1 => 6
        B(A), C => 2
        B = 1, C => 3
        B = => missing after 2
        ",
    );
}

#[test]
fn a_discriminant_ends_at_a_comma_that_is_in_no_brackets() {
    let rt = HostRuntime;
    check(
        &rt,
        &Part::Expression,
        r#"
        f::<X, Y>(), B => 9
        1 << 2, B => 4
        a < b, C => 3
        x as Vec<A, B>, C => 8
        x as u8 <= 3, B => 6
        x as u8 < 3, B => missing after 7
        x as (u8) < 3, B => 5
        x as [u8; 2] << 3, B => 6
        f as extern "C" fn(u8) -> u8, B => 9
        x as "C", B => error at 3
        continue 'a, B => 3
        1 + <T>::C, D => 8
        a<<T>::C, F => 8
        a << <T>::C, F => 9
        |a: Vec<X, Y>, b| -> Vec<A, B> { a }, D => 21
        a || b, F => 4
        || 1, F => 3
        |a| |b, c| d, F => 9
        a | b, c => 3
        |a; b| 1 => error at 2
        return, B => 1
        'a: loop { break 'a 1 }, B => 5
        async move |x| x + 1, B => 8
        &raw const x, B => 4
        if let Some(a) = b && let Some(c) = d && e { 1 } else { 2 }, B => 19
        ..=5, B => 4
        a..b, C => 4
        a.await?.b[1](c), D => 8
        if a { 1 } else { 2 }, B => 5
        #[a] -!1, B => 5
        1 B => 1
        a as, b => error at 2
        a. , b => error at 2
        1 + => missing after 2
        , 1 => error at 0
        => missing after 0
        "#,
    );
    check(
        &rt,
        &Part::Variants,
        "
        A = f::<X, Y>(), B = 1 << 2 => 18
        A, #[a] B(u8) = x as Vec<A, B>, C { d: D }, => 19
        A = a < b, C > ::d() => 7
        A = 1 B => 3
        A = 1, #[a] => missing after 6
        A B => 1
        A,, B => 2
        A = , B => error at 2
        => 0
        ",
    );
}

#[test]
fn generics_and_where_clauses_end_before_the_body() {
    let rt = HostRuntime;
    check(
        &rt,
        &Part::Generics,
        "
        <'a, T: A<B> = C, const N: usize = 3> where => 20
        <T = Vec<[u8; 3]>>(T) => 8
        <#[a] T,> {} => 6
        <const N: i8 = -1> {} => 9
        <T { a: T } => error at 2
        <,> => error at 1
        (T) => 0
        ",
    );
    check(
        &rt,
        &Part::Where,
        "
        where T: A, [U; 2]: B { x } => 8
        where for<'a> T: A<'a>, {} => 14
        where {} => 1
        where T {} => error at 2
        {} => 0
        ",
    );
}

#[test]
fn items_are_structs_enums_and_unions() {
    let rt = HostRuntime;
    check(
        &rt,
        &Part::Item,
        "
        struct S; => 3
        #[a] pub(crate) struct S<T> where T: A { a: T } fn => 14
        struct S(u8) where T: A; => 8
        pub struct union(u8); => 5
        pub struct gen<gen>(gen); => 8
        gen struct S; => error at 0
        enum E<T> where T: A { B(T) } => 10
        union U { a: u8 } => 3
        struct S<T { a: T } => error at 4
        struct S(u8) {} => error at 3
        struct S(u8) => missing after 3
        enum E; => error at 2
        pub fn f() {} => error at 1
        => missing after 0
        ",
    );
}

#[test]
fn a_file_begins_with_inner_attributes() {
    let rt = HostRuntime;
    check(
        &rt,
        &Part::InnerAttributes,
        "
        #![a] # ![b] #[c] fn => 6
        fn => 0
        #!a => error at 2
        ",
    );
}

#[test]
fn what_is_no_item_has_a_fault() {
    let rt = HostRuntime;
    check(
        &rt,
        &FirstItem,
        "
        pub m! {} => error at 1
        unsafe const fn f() {} => error at 1
        unsafe gen fn f() {} => error at 1
        gen async fn f() {} => error at 1
        const gen gen fn f() {} => error at 2
        pub gen! {} => error at 2
        gen static X: u8; => error at 1
        default gen struct S; => error at 2
        const gen = 1; => error at 2
        gen: u8 => error at 1
        r#gen fn f() {} => error at 1
        async r#gen fn f() {} => error at 1
        m!(a) m! {} => error at 3
        const N = 1; => error at 2
        const N: u8 = ; => error at 5
        impl A + for B {} => error at 4
        trait A: B = C; => error at 4
        const unsafe trait T {} => error at 2
        const auto trait T {} => error at 2
        const safe trait T {} => error at 2
        const async trait T {} => error at 2
        const const trait T {} => error at 1
        unsafe const trait T {} => error at 1
        auto const trait T {} => error at 1
        const trait {} => error at 2
        const trait T: u8 = 1; => error at 5
        const trait T; => error at 3
        fn f() -> ; => error at 5
        fn f {} => error at 2
        use a::; => error at 4
        #![a] => error at 0
        => missing after 0
        ",
    );
}

// A macro by example passes `$l:lifetime`, `$l:literal` and `$v:vis` so.
#[test]
fn a_group_without_delimiters_has_the_class_of_what_it_holds() {
    let rt = HostRuntime;
    check(
        &rt,
        &Part::Type,
        r#"
        &«'a»u8, x => 3
        &«««««««'a»»»»»»»mut u8, x => 4
        Vec<««'a»», T> = x => 6
        dyn A +«'a», x => 4
        &«'a b»u8, x => 2
        &«1», x => error at 1
        A<««1»»>, x => 4
        A<-«1»>, x => 5
        extern«"C"»fn(), x => 4
        extern«f()»fn(), x => 2
        «««««Vec<A>»»»»»::B, x => 4
        "#,
    );
    check(
        &rt,
        &Part::Generics,
        "
        <«'a»: 'b, T> x => 8
        <T:«««'a»»»> x => 5
        <T:«'a» + B> x => 7
        ",
    );
    check(
        &rt,
        &Part::Where,
        "
        where T:«'a», {} => 5
        where««'a»»: 'b {} => 5
        ",
    );
    check(
        &rt,
        &Part::Visibility,
        "
        ««pub»»x => 1
        «««»»»x => 1
        «««««««««pub(crate)»»»»»»»»»x => 1
        ««'a»»x => 0
        ",
    );
}

// A macro by example passes `$b:block` so. Braces of other items are no blocks.
#[test]
fn a_block_is_a_body_a_constant_or_an_operand_of_an_expression() {
    let rt = HostRuntime;
    check(
        &rt,
        &FirstItem,
        "
        fn f()«{ x }»struct S; => Function 4 f
        fn f() -> A where T: B«««{ x }»»»; => Function 11 f
        fn f()«{ x } y» => error at 3
        struct S«{ x: u8 }» => error at 2
        impl A«{}» => error at 2
        mod m«{}» => error at 2
        m!«{}» => error at 2
        «{}» => error at 0
        ",
    );
    check(
        &rt,
        &Part::Type,
        "
        A<««{ N }»»>, x => 4
        A +«{ N }» => 2
        «{ N }», x => error at 0
        ",
    );
    check(&rt, &Part::Generics, "<const N: u8 =««{ 1 }»», T> x => 10");
    check(
        &rt,
        &Part::Expression,
        "
        1 +«{ 2 }», x => 3
        1 as««{ 2 }»»* 3, x => 5
        ",
    );
    check(&rt, &Part::Variant, "V«{ x: u8 }» => 1");
}
