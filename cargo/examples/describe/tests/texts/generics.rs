//! Generic parameters, bounds and where clauses.

use crate::{hidden, Describe, Silent};
use describe::Describe;
use std::fmt::Debug;
use std::marker::PhantomData;

/// That the type has the trait.
fn is_described<T: Describe>(_: &T) {}

#[test]
fn bounds_of_named_parameters() {
    #[derive(Describe)]
    struct Pair<A, B> {
        first: A,
        rest: Vec<(A, B)>,
    }
    assert_eq!(Pair { first: 1_u8, rest: vec![(2, 'x')] }.describe(), "Pair { first: 1, rest: [(2, x)] }");
}

#[test]
fn parameters_of_skipped_fields_have_no_bound() {
    #[derive(Describe)]
    struct Mixed<S, W, D> {
        #[describe(skip)]
        _skipped: S,
        #[describe(with = hidden)]
        shown: W,
        described: D,
    }
    let mixed = Mixed { _skipped: Silent, shown: Silent, described: 1_u8 };
    is_described(&mixed);
    assert_eq!(mixed.describe(), "Mixed { shown: hidden, described: 1 }");
}

#[test]
fn parameters_of_skipped_variants_have_no_bound() {
    #[derive(Describe)]
    enum Either<L, R> {
        Left(L),
        #[describe(skip)]
        Right(#[allow(dead_code)] R),
    }
    let sides: [Either<u8, Silent>; 2] = [Either::Left(1), Either::Right(Silent)];
    assert_eq!(sides.describe(), "[Left(1), Right]");
}

#[test]
fn names_that_are_no_parameters() {
    trait Produce {
        type T;
    }
    impl Produce for Silent {
        type T = Silent;
    }
    impl<T> Describe for Box<dyn Produce<T = T>> {
        fn describe(&self) -> String {
            "a producer".to_string()
        }
    }
    mod inner {
        pub type T = u8;
    }
    #[derive(Describe)]
    #[allow(non_snake_case)]
    struct Uses<'T, T> {
        binding: Box<dyn Produce<T = Silent>>,
        path: inner::T,
        lifetime: &'T u8,
        #[describe(skip)]
        _marker: PhantomData<T>,
    }
    let uses = Uses::<Silent> { binding: Box::new(Silent), path: 1, lifetime: &2, _marker: PhantomData };
    assert_eq!(uses.describe(), "Uses { binding: a producer, path: 1, lifetime: &2 }");
}

#[test]
fn existing_bounds_and_where_clauses() {
    #[derive(Describe)]
    struct Bounded<'a, 'b: 'a, A: Debug + Copy, B: 'b + ?Sized, C = u8>
    where
        B: Debug,
        for<'x> &'x C: Debug,
    {
        a: A,
        b: &'a &'b B,
        c: C,
    }
    let bounded = Bounded { a: 1_u8, b: &"two", c: 'c' };
    assert_eq!(bounded.describe(), "Bounded { a: 1, b: &&two, c: c }");
}

#[test]
fn where_clause_of_a_tuple_struct() {
    #[derive(Describe)]
    struct Tuple<T>(T)
    where
        T: Clone;
    #[derive(Describe)]
    struct Unit
    where
        u8: Clone;
    assert_eq!(Tuple(1_u8).describe() + &Unit.describe(), "Tuple(1)Unit");
}

#[test]
fn lifetimes() {
    #[derive(Describe)]
    enum Text<'a> {
        Short(&'a str),
        Long(&'a [&'static str]),
    }
    let name = String::from("x");
    assert_eq!([Text::Short(&name), Text::Long(&["y"])].describe(), "[Short(&x), Long(&[&y])]");
}

#[test]
fn constant_parameters() {
    #[derive(Describe)]
    struct Array<T, const N: usize = 2, const FLAG: bool = false> {
        values: [T; N],
    }
    let array: Array<u8> = Array { values: [1, 2] };
    assert_eq!(array.describe(), "Array { values: [1, 2] }");
    assert_eq!(Array::<char, 1, true> { values: ['a'] }.describe(), "Array { values: [a] }");
}

#[test]
fn constant_expressions_in_types() {
    const SIZE: usize = 1;
    #[derive(Describe)]
    struct Sizes([u8; SIZE + 1], [bool; SIZE << 1]);
    assert_eq!(Sizes([1, 2], [true, false]).describe(), "Sizes([1, 2], [true, false])");
}

#[test]
fn types_with_pluses() {
    #[derive(Describe)]
    struct Objects<'a> {
        boxed: Box<dyn Describe + Send + 'a>,
        lent: &'a (dyn Describe + Sync),
    }
    let objects = Objects { boxed: Box::new(1_u8), lent: &'b' };
    assert_eq!(objects.describe(), "Objects { boxed: 1, lent: &b }");
}

#[test]
fn associated_types_with_a_predicate_of_the_caller() {
    #[derive(Describe)]
    struct First<I: Iterator>
    where
        I::Item: Describe,
    {
        #[describe(skip)]
        _source: I,
        item: Option<I::Item>,
    }
    struct Source;
    impl Iterator for Source {
        type Item = u8;
        fn next(&mut self) -> Option<u8> {
            Some(3)
        }
    }
    impl Describe for Source {
        fn describe(&self) -> String {
            "a source".to_string()
        }
    }
    assert_eq!(First { item: Source.next(), _source: Source }.describe(), "First { item: 3 }");
}
