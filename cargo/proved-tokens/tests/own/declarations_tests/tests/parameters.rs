// Made from crates/declarations_tests/src/tests/parameters.rt by dev/erase: change that file, not this one.

use crate::shim::prelude::HostRuntime;

// The parameters of functions. The crate syn 2 reads each text in the same way, unless a row says otherwise.
use crate::declarations_tests::tests::checks::{Answer, Reads, check};
use proved_tokens::declarations::{Parameter, ParameterKind, Parameters, parse_parameter, split_pattern};
use proved_tokens::proc_macro2::TokenTree;

/// Writes a parameter: its receiver or pattern, its type or `dots`, and its attributes.
fn put_parameter(out: &mut Answer, parameter: &Parameter<'_>) {
    let pattern = match parameter.kind {
        ParameterKind::Receiver | ParameterKind::TypedReceiver(_) => "receiver",
        ParameterKind::Typed(_) | ParameterKind::Variadic => "pattern",
    };
    out.count(pattern, parameter.pattern.len());
    match parameter.kind {
        ParameterKind::Receiver => {}
        ParameterKind::TypedReceiver(ty) | ParameterKind::Typed(ty) => {
            out.count(", type", ty.len());
        }
        ParameterKind::Variadic => out.text(", dots"),
    }
    out.part("attributes", parameter.attributes.len());
}

/// The parameters in the parentheses of a function.
struct List;

impl Reads for List {
    fn put(&self, trees: &[TokenTree], out: &mut Answer) {
        for parameter in (Parameters { left: trees }) {
            out.separate();
            match parameter {
                Ok(parameter) => put_parameter(out, &parameter),
                Err(fault) => out.error(&fault),
            }
        }
    }
}

// A macro by example passes `$l:lifetime` in a group without delimiters.
#[test]
fn a_lifetime_may_be_in_a_group_without_delimiters() {
    let rt = HostRuntime;
    check(
        &rt,
        &List,
        "
        &«'a»self => receiver 3
        &««««'a»»»»mut self, x: u8 => receiver 4; pattern 1, type 1
        self: &«'a»Self => receiver 1, type 3
        x: &««'a»»str => pattern 1, type 3
        &«'a»x: u8 => error at 2
        ",
    );
}

#[test]
fn receivers_have_all_their_forms() {
    let rt = HostRuntime;
    check(
        &rt,
        &List,
        "
        =>
        self => receiver 1
        mut self, => receiver 2
        &self => receiver 2
        &mut self => receiver 3
        &'a self => receiver 4
        &'a mut self, x: u8 => receiver 5; pattern 1, type 1
        self: Box<Self> => receiver 1, type 4
        mut self: Pin<&mut Self>, n: usize => receiver 2, type 6; pattern 1, type 1
        #[a] #[b(c)] &self => receiver 2, attributes 4
        ",
    );
}

#[test]
fn patterns_end_at_their_colons() {
    let rt = HostRuntime;
    check(
        &rt,
        &List,
        "
        x: u8 => pattern 1, type 1
        mut x: u8, => pattern 2, type 1
        _: u8, ref x: u8 => pattern 1, type 1; pattern 2, type 1
        (a, b): (A, B) => pattern 1, type 1
        &x: &u8 => pattern 2, type 2
        &mut x: &'a mut u8 => pattern 3, type 5
        &&x: &&u8 => pattern 3, type 3
        & &mut x: T => pattern 4, type 1
        [a, .., b]: [u8; 4] => pattern 1, type 1
        P { x, .. }: P => pattern 2, type 1
        a::P(x): a::P => pattern 5, type 4
        P::<u8>(x): P<u8> => pattern 7, type 4
        P::<T> { x }: P<T> => pattern 7, type 4
        <A as B>::C(x): D => pattern 9, type 1
        x @ P { .. }: P => pattern 4, type 1
        x @ 0..=255: u8 => pattern 7, type 1
        -1..=1: i8 => pattern 6, type 1
        p!(x): P => pattern 3, type 1
        crate::A(x): A, super::B: B => pattern 5, type 1; pattern 4, type 1
        r#self2: u8, union: u8 => pattern 1, type 1; pattern 1, type 1
        #[a] x: u8 => pattern 1, type 1, attributes 2
        ",
    );
}

#[test]
fn a_pattern_may_begin_with_two_dots() {
    let rt = HostRuntime;
    check(
        &rt,
        &List,
        "
        ..: A => pattern 2, type 1
        ..5: u8, x: u8 => pattern 3, type 1; pattern 1, type 1
        ..=9: u8, => pattern 4, type 1
        ..=a::B: &u8 => pattern 7, type 2
        #[a] ..=9: u8 => pattern 4, type 1, attributes 2
        ..: ... => pattern 2, dots
        &..: &A => pattern 3, type 2
        // The crate syn reads no pattern here and in the next row.
        mut ..5: u8 => pattern 4, type 1
        ..P::<T> { x }: P<T> => pattern 9, type 4
        ",
    );
}

#[test]
fn a_pattern_may_have_self_after_its_first_sign() {
    let rt = HostRuntime;
    check(
        &rt,
        &List,
        "
        x @ self::A: T => pattern 6, type 1
        0..=self::MAX: u8 => pattern 8, type 1
        ..=self::MAX: u8 => pattern 7, type 1
        &x @ self::A(a): &A => pattern 8, type 2
        mut x @ self::A: A => pattern 7, type 1
        &&self::A(a): &&A => pattern 7, type 3
        x @ self::A => missing after 6
        ",
    );
}

#[test]
fn types_end_at_their_commas() {
    let rt = HostRuntime;
    check(
        &rt,
        &List,
        "
        f: &dyn Fn(A, B) -> C, d: D => pattern 1, type 7; pattern 1, type 1
        f: impl Fn(A, B) -> Vec<C>, d: D => pattern 1, type 9; pattern 1, type 1
        m: HashMap<A, Vec<B>>, d: D => pattern 1, type 9; pattern 1, type 1
        f: Box<dyn Fn() -> A>, d: D => pattern 1, type 9; pattern 1, type 1
        f: for<'a> fn(&'a A) -> &'a B, d: D => pattern 1, type 13; pattern 1, type 1
        // A trait without `dyn`. The crate syn does not read it before `->`.
        f: Fn(A, B) -> C, d: D => pattern 1, type 5; pattern 1, type 1
        ",
    );
}

#[test]
fn dots_are_the_last() {
    let rt = HostRuntime;
    check(
        &rt,
        &List,
        "
        x: u8, ... => pattern 1, type 1; pattern 0, dots
        #[a] mut rest: ... => pattern 2, dots, attributes 2
        #[a] ..., => pattern 0, dots, attributes 2
        ...: u8 => error at 3
        .... => error at 3
        ",
    );
}

#[test]
fn a_fault_ends_the_parameters() {
    let rt = HostRuntime;
    check(
        &rt,
        &List,
        "
        x => missing after 1
        x, => error at 1
        x: => missing after 2
        : u8 => error at 0
        mut: u8 => error at 1
        &: u8 => error at 1
        &self: A => error at 2
        &'a mut self: A => error at 5
        &'a x: A => error at 3
        &&self => missing after 3
        self x => error at 1
        // The compiler reads the next three.
        self::A(a): A => error at 1
        &self::A(a): &A => error at 2
        &mut self::A(a): &mut A => error at 3
        x: u8 y: u8 => error at 3
        x: u8 = 1 => error at 3
        x: A, , y: B => pattern 1, type 1; error at 0
        #[a] => missing after 2
        . => missing after 1
        . x: u8 => error at 1
        .. => missing after 2
        ..5 | 7: u8 => error at 3
        fn x: u8 => error at 0
        // The crate syn reads this as `self` with `...`.
        self: ... => error at 2
        ",
    );
}

/// The trees in the pattern that comes first, and those that are left after it.
struct Pattern;

impl Reads for Pattern {
    fn put(&self, trees: &[TokenTree], out: &mut Answer) {
        match split_pattern(trees) {
            Ok((pattern, rest)) => {
                out.count("pattern", pattern.len());
                out.part("left", rest.len());
            }
            Err(fault) => out.error(&fault),
        }
    }
}

#[test]
fn dots_can_begin_a_pattern_alone() {
    let rt = HostRuntime;
    check(
        &rt,
        &Pattern,
        "
        .. => pattern 2
        ..5 | 7 => pattern 3, left 2
        ..=9: u8 => pattern 4, left 2
        ... => pattern 3
        . 5 => error at 1
        ",
    );
}

#[test]
fn a_split_pattern_may_have_self_after_its_first_sign() {
    let rt = HostRuntime;
    check(
        &rt,
        &Pattern,
        "
        x @ self::A: T => pattern 6, left 2
        0..=self::MAX | 7 => pattern 8, left 2
        ..self => pattern 3
        &self::A(a): &A => pattern 6, left 3
        mut self: A => pattern 2, left 2
        self => error at 0
        self::A: T => error at 0
        ",
    );
}

/// The first parameter, and the trees that are left after it.
struct First;

impl Reads for First {
    fn put(&self, trees: &[TokenTree], out: &mut Answer) {
        match parse_parameter(trees) {
            Ok((parameter, rest)) => {
                put_parameter(out, &parameter);
                out.part("left", rest.len());
            }
            Err(fault) => out.error(&fault),
        }
    }
}

#[test]
fn the_first_parameter_leaves_the_rest() {
    let rt = HostRuntime;
    check(
        &rt,
        &First,
        "(a, b): (A, B), c: C => pattern 1, type 1, left 4",
    );
    check(&rt, &Pattern, "(a, b): (A, B), c: C => pattern 1, left 6");
}
