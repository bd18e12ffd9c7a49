//! Types that are declared by `macro_rules!`, with each kind of fragment.

use crate::{hidden, other, Describe, Silent};
use describe::Describe;

#[test]
fn types_as_fragments() {
    macro_rules! declare {
        ($name:ident, $t:ty, $u:ty) => {
            #[derive(Describe)]
            struct $name<'a, T: 'a> {
                whole: $t,
                list: Vec<$t>,
                lent: &'a $u,
                generic: T,
            }
        };
    }
    declare!(Typed, Option<(u8, bool)>, dyn Describe + 'a);
    let typed = Typed { whole: Some((1, true)), list: vec![None], lent: &'c', generic: 4_u8 };
    assert_eq!(typed.describe(), "Typed { whole: (1, true), list: [nothing], lent: &c, generic: 4 }");
}

#[test]
fn parameters_in_type_fragments() {
    macro_rules! declare {
        ($($name:ident: $t:ty),*) => {
            #[derive(Describe)]
            struct Generic<A, B, C> {
                $($name: $t,)*
                #[describe(skip)]
                _unused: Option<C>,
            }
        };
    }
    declare!(a: Vec<A>, b: (B, u8));
    let generic = Generic::<u8, char, Silent> { a: vec![1], b: ('b', 2), _unused: None };
    assert_eq!(generic.describe(), "Generic { a: [1], b: (b, 2) }");
}

#[test]
fn types_through_two_macros() {
    macro_rules! inner {
        ($t:ty, $l:literal) => {
            #[derive(Describe)]
            struct Twice<T>(#[describe(with = hidden)] $t, $t, #[describe(skip)] [(); $l]);
        };
    }
    macro_rules! outer {
        ($t:ty, $l:literal) => {
            inner!($t, $l);
        };
    }
    outer!(Option<T>, 1);
    assert_eq!(Twice(Some(1_u8), None, [()]).describe(), "Twice(hidden, nothing)");
}

#[test]
fn objects_in_type_fragments() {
    macro_rules! declare {
        ($t:ty) => {
            #[derive(Describe)]
            struct Object<'a>(Box<$t>, &'a $t, Vec<&'a ($t)>);
        };
    }
    declare!(dyn Describe + Send + 'a);
    let object = Object(Box::new(1_u8), &2_u8, vec![&3_u8]);
    assert_eq!(object.describe(), "Object(1, &2, [&3])");
}

#[test]
fn names_and_visibilities_as_fragments() {
    macro_rules! declare {
        ($v:vis $name:ident { $($w:vis $field:ident),* } $variant:ident) => {
            #[derive(Describe)]
            $v struct $name { $($w $field: u8),* }
            #[derive(Describe)]
            $v enum Sum { $variant { $($field: u8),* } }
        };
    }
    declare!(pub(crate) Named { pub a, pub(super) r#b, c } r#Only);
    assert_eq!(Named { a: 1, b: 2, c: 3 }.describe(), "Named { a: 1, b: 2, c: 3 }");
    assert_eq!(Sum::Only { a: 1, b: 2, c: 3 }.describe(), "Only { a: 1, b: 2, c: 3 }");
}

#[test]
fn visibilities_of_tuple_fields() {
    macro_rules! declare {
        ($v:vis, $w:vis, $name:ident) => {
            #[derive(Describe)]
            $w struct $name($v u8, $w u8);
        };
    }
    declare!(pub(in crate::fragments), , Tuple);
    assert_eq!(Tuple(1, 2).describe(), "Tuple(1, 2)");
}

#[test]
fn literals_and_expressions_in_attributes() {
    macro_rules! declare {
        ($l:literal, $e:expr, $t:tt) => {
            #[derive(Describe)]
            #[describe(rename = $l)]
            struct Renamed {
                #[describe(rename = $e)]
                a: u8,
                #[describe(rename = $t)]
                b: u8,
            }
        };
    }
    declare!("type", r"field {}", "tree");
    assert_eq!(Renamed { a: 1, b: 2 }.describe(), "type { field {}: 1, tree: 2 }");
}

#[test]
fn expressions_in_types_and_discriminants() {
    macro_rules! declare {
        ($e:expr, $b:block) => {
            #[derive(Describe)]
            struct Sized([u8; $e], [u8; 2 * $e], Option<[u8; $b]>);
            #[derive(Describe)]
            #[repr(u8)]
            enum Code {
                Only = 2 * $e,
            }
        };
    }
    declare!(1 + 1, { 1 });
    assert_eq!(Sized([1; 2], [2; 4], Some([3])).describe(), "Sized([1, 1], [2, 2, 2, 2], [3])");
    assert_eq!(Code::Only.describe(), "Only");
}

#[test]
fn deprecated_types_of_macros() {
    macro_rules! declare {
        ($m:meta, $n:ident) => {
            #[$m]
            #[derive(Describe)]
            struct $n<T> {
                #[$m]
                field: T,
            }
        };
    }
    declare!(deprecated, Old);
    #[allow(deprecated)]
    let old = Old { field: 1_u8 };
    assert_eq!(old.describe(), "Old { field: 1 }");
}

#[test]
fn blocks_in_angle_brackets() {
    struct Sized<const N: usize>;
    impl<const N: usize> Describe for Sized<N> {
        fn describe(&self) -> String {
            N.to_string()
        }
    }
    macro_rules! declare {
        ($b:block) => {
            #[derive(Describe)]
            struct Holder<T>(Sized<$b>, T)
            where
                Sized<$b>: Describe;
        };
    }
    declare!({ 3 });
    assert_eq!(Holder(Sized, 1_u8).describe(), "Holder(3, 1)");
}

#[test]
fn paths_as_fragments() {
    macro_rules! declare {
        ($p:path, $q:path, $m:path) => {
            #[derive(Describe)]
            #[describe(crate = $m)]
            struct Path {
                #[describe(with = $p)]
                a: Silent,
                #[describe(with = $q)]
                b: u8,
                c: u8,
            }
        };
    }
    declare!(hidden::<Silent>, std::string::ToString::to_string, crate::other);
    let path = Path { a: Silent, b: 1, c: 2 };
    assert_eq!(other::Describe::describe(&path), "Path { a: hidden, b: 1, c: other 2 }");
}

#[test]
fn functions_as_other_fragments() {
    macro_rules! declare {
        ($e:expr, $i:ident, $t:tt, $key:ident, $m:ident) => {
            #[derive(Describe)]
            #[describe($m = $m)]
            struct Functions(
                #[describe(with = $e)] Silent,
                #[describe($key = $i)] Silent,
                #[describe($key = crate::$t::<Silent>)] Silent,
            );
        };
    }
    declare!(crate::hidden::<Silent>, hidden, hidden, with, crate);
    assert_eq!(Functions(Silent, Silent, Silent).describe(), "Functions(hidden, hidden, hidden)");
}

#[test]
fn closures_in_type_fragments() {
    macro_rules! declare {
        ($t:ty, $u:ty) => {
            #[derive(Describe)]
            struct Calls<'a> {
                #[describe(with = hidden)]
                call: $t,
                #[describe(with = hidden)]
                lent: &'a $u,
                pointer: for<'x> fn(&'x $t) -> bool,
            }
        };
    }
    declare!(Option<Box<dyn Fn() + 'a>>, dyn Fn() + Send + 'a);
    let calls = Calls { call: None, lent: &|| (), pointer: Option::is_none };
    assert_eq!(calls.describe(), "Calls { call: hidden, lent: hidden, pointer: a function }");
}

#[test]
fn lints_as_fragments() {
    macro_rules! declare {
        ($m:meta, $n:meta, $name:ident) => {
            #[derive(Describe)]
            #[allow($m)]
            #[$n]
            struct $name<parameter>(parameter);
        };
    }
    declare!(non_camel_case_types, allow(dead_code, reason = "a test"), size_t);
    assert_eq!(size_t(1_u8).describe(), "size_t(1)");
}

#[test]
fn types_in_paths_of_functions() {
    macro_rules! declare {
        ($t:ty) => {
            #[derive(Describe)]
            struct Path<'a>(#[describe(with = hidden::<$t>)] Box<$t>, #[describe(with = hidden::<&'a $t>)] &'a $t);
        };
    }
    declare!(dyn Fn() + Send + 'a);
    assert_eq!(Path(Box::new(|| ()), &|| ()).describe(), "Path(hidden, hidden)");
}

#[test]
fn entries_as_fragments() {
    macro_rules! declare {
        ($m:meta, $n:meta, $skip:meta, $p:path) => {
            #[derive(Describe)]
            #[$m]
            enum Meta {
                #[$n]
                First {
                    #[describe($skip)]
                    #[allow(dead_code)]
                    a: Silent,
                    #[describe($p = "x")]
                    b: u8,
                },
            }
        };
    }
    declare!(describe(rename = "T", crate = crate), describe(rename = "one"), skip, rename);
    assert_eq!(Meta::First { a: Silent, b: 1 }.describe(), "one { x: 1 }");
}

#[test]
fn entries_through_two_macros() {
    macro_rules! inner {
        ($($m:meta),*; $p:path; $l:literal) => {
            #[derive(Describe)]
            struct Twice {
                #[describe($($m),*)]
                #[describe(with = $p)]
                a: u8,
                #[describe(rename = $l)]
                b: u8,
            }
        };
    }
    macro_rules! outer {
        ($($m:meta),*; $p:path; $l:literal) => { inner!($($m),*; $p; $l); };
    }
    outer!(rename = "A"; hidden; "B");
    assert_eq!(Twice { a: 1, b: 2 }.describe(), "Twice { A: hidden, B: 2 }");
}

#[test]
fn lifetimes_bounds_and_parameters_as_fragments() {
    macro_rules! declare {
        ($l:lifetime, $T:ident, $bound:path, $t:ty, $n:ident, $size:ty, $d:expr) => {
            #[derive(Describe)]
            struct Generic<$l, $T: $bound + $l, const $n: $size = $d>(&$l $T, [u8; $n])
            where
                $t: Clone,
                $T: $l;
        };
    }
    declare!('a, T, std::fmt::Debug, &'a T, N, usize, { 1 + 1 });
    let generic: Generic<u8> = Generic(&1, [2, 3]);
    assert_eq!(generic.describe(), "Generic(&1, [2, 3])");
}

#[test]
fn items_as_fragments() {
    macro_rules! derive_for {
        ($i:item) => {
            #[derive(Describe)]
            $i
        };
    }
    derive_for!(
        struct Item {
            #[describe(rename = "x")]
            field: u8,
        }
    );
    assert_eq!(Item { field: 1 }.describe(), "Item { x: 1 }");
}

#[test]
fn locals_of_the_caller() {
    macro_rules! declare {
        ($crate_path:path, $($field:ident)*) => {
            #[derive(Describe)]
            #[describe(crate = $crate)]
            struct Locals {
                $($field: u8,)*
                #[describe(with = $crate::hidden)]
                field: u8,
            }
            let described_field_0 = Locals { $($field: 1,)* field: 2 };
            assert_eq!(<Locals as $crate_path>::describe(&described_field_0), "Locals { other: 1, field: hidden }");
        };
    }
    declare!(crate::Describe, other);
}
