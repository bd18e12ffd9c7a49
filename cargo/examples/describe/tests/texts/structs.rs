//! Structs of each kind.

use crate::Describe;
use describe::Describe;

#[test]
fn named_fields() {
    #[derive(Describe)]
    struct Point {
        x: u8,
        y: i32,
    }
    assert_eq!(Point { x: 1, y: -2 }.describe(), "Point { x: 1, y: -2 }");
}

#[test]
fn tuple_fields() {
    #[derive(Describe)]
    struct Pair(u8, pub String);
    assert_eq!(Pair(1, "two".to_string()).describe(), "Pair(1, two)");
}

#[test]
fn one_tuple_field() {
    #[derive(Describe)]
    struct Meters(u8);
    assert_eq!(Meters(3).describe(), "Meters(3)");
}

#[test]
fn unit_struct() {
    #[derive(Describe)]
    struct Unit;
    assert_eq!(Unit.describe(), "Unit");
}

#[test]
fn structs_without_fields() {
    #[derive(Describe)]
    struct Braces {}
    #[derive(Describe)]
    struct Parentheses();
    assert_eq!(Braces {}.describe() + &Parentheses().describe(), "Braces {}Parentheses()");
}

#[test]
fn raw_identifiers() {
    #[derive(Describe)]
    #[allow(non_camel_case_types)]
    struct r#struct<r#type> {
        r#fn: r#type,
        r#match: u8,
    }
    assert_eq!(r#struct { r#fn: true, r#match: 4 }.describe(), "struct { fn: true, match: 4 }");
}

#[test]
fn nested_structs() {
    #[derive(Describe)]
    struct Inner(u8);
    #[derive(Describe)]
    struct Outer {
        inner: Inner,
        list: Vec<Inner>,
    }
    let outer = Outer { inner: Inner(1), list: vec![Inner(2), Inner(3)] };
    assert_eq!(outer.describe(), "Outer { inner: Inner(1), list: [Inner(2), Inner(3)] }");
}

#[test]
fn struct_that_holds_itself() {
    #[derive(Describe)]
    struct Chain {
        next: Option<Box<Self>>,
    }
    let chain = Chain { next: Some(Box::new(Chain { next: None })) };
    assert_eq!(chain.describe(), "Chain { next: Chain { next: nothing } }");
}

#[test]
fn field_without_a_size() {
    #[derive(Describe)]
    struct Tail<T: ?Sized> {
        size: u8,
        tail: T,
    }
    let tail: &Tail<[u8]> = &Tail { size: 2, tail: [5, 6] };
    assert_eq!(tail.describe(), "Tail { size: 2, tail: [5, 6] }");
}

#[test]
fn names_that_the_caller_uses() {
    #[allow(non_upper_case_globals, dead_code)]
    const text: u8 = 0;
    #[allow(dead_code)]
    struct String;
    #[derive(Describe)]
    struct Names {
        self_: u8,
        text: u8,
    }
    assert_eq!(Names { self_: 1, text: 2 }.describe(), "Names { self_: 1, text: 2 }");
}

#[test]
fn lints_that_the_item_allows() {
    #[derive(Describe)]
    #[expect(non_camel_case_types, reason = "as in C")]
    struct size_t<value>(value);
    #[derive(Describe)]
    #[allow(non_snake_case)]
    struct Flags {
        isSet: bool,
    }
    assert_eq!(size_t(1_u8).describe() + &Flags { isSet: true }.describe(), "size_t(1)Flags { isSet: true }");
}

#[test]
fn deprecated_types() {
    #[derive(Describe)]
    #[deprecated]
    struct Old {
        #[deprecated(note = "use another")]
        field: u8,
    }
    #[allow(deprecated)]
    let old = Old { field: 1 };
    assert_eq!(old.describe(), "Old { field: 1 }");
}

#[test]
fn deprecated_types_with_themselves_inside() {
    #[derive(Describe)]
    #[deprecated]
    struct List {
        next: Option<Box<List>>,
    }
    #[allow(deprecated)]
    let list = List { next: Some(Box::new(List { next: None })) };
    assert_eq!(list.describe(), "List { next: List { next: nothing } }");
}

mod without_prelude {
    #![no_implicit_prelude]

    #[derive(::describe::Describe)]
    pub struct Bare<T> {
        pub value: T,
        #[describe(with = crate::hidden)]
        pub other: u8,
    }
}

#[test]
fn module_without_a_prelude() {
    let bare = without_prelude::Bare { value: 1_u8, other: 2 };
    assert_eq!(bare.describe(), "Bare { value: 1, other: hidden }");
}

#[test]
fn conditions() {
    #[derive(Describe)]
    struct Conditional {
        #[cfg(any())]
        missing: crate::Missing,
        #[cfg_attr(all(), describe(rename = "b"))]
        present: u8,
    }
    assert_eq!(Conditional { present: 1 }.describe(), "Conditional { b: 1 }");
}
