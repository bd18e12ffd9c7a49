//! The derive inside of macros by example, whose fragments are groups without delimiters, through one and two of them.
use names::Names;

pub struct Sizes<const A: usize, const B: usize>;

macro_rules! shape {
    ($name:ident, $t:ty, $e:expr, $m:meta, $v:vis, $p:path, $l:literal, $n:meta, $b:block, $lt:lifetime) => {
        #[derive(Names)]
        #[$m]
        $v enum $name<const N: $t = $b>
        where
            [$t; N]: $p,
            Sizes<$b, N>: $p,
            for<$lt> &$lt $t: $p,
        {
            #[$m]
            First = $e,
            #[name = $l]
            Second,
            #[$n]
            Third,
        }
    };
}

macro_rules! twice_shape {
    ($name:ident, $t:ty, $e:expr, $m:meta, $v:vis, $p:path, $l:literal, $n:meta, $b:block, $lt:lifetime) => {
        shape!($name, $t, $e, $m, $v, $p, $l, $n, $b, $lt);
    };
}

/// Items that are passed as a whole.
macro_rules! item {
    ($i:item) => {
        #[derive(Names)]
        $i
    };
}

macro_rules! twice_item {
    ($i:item) => {
        item! { $i }
    };
}

shape!(Once, usize, 1 + 1, allow(dead_code), pub(crate), Sized, "second", name = "third", { 1 + 1 }, 'a);
twice_shape!(
    Twice, usize, 1 + 1, allow(dead_code), pub, ::core::marker::Sized, "second", name = "third", { 1 + 3 }, 'b
);
item! {
    #[allow(dead_code)]
    pub enum Whole {
        #[name = "w"]
        First,
    }
}
twice_item! {
    pub(crate) enum TwiceWhole {
        First,
    }
}

#[test]
fn fragments_are_taken_over() {
    let names = ["First", "second", "third"];
    assert_eq!([Once::<3>::First, Once::Second, Once::Third].map(|value| value.name()), names);
    assert_eq!([Twice::<3>::First, Twice::Second, Twice::Third].map(|value| value.name()), names);
    let (once, twice): (Once, Twice) = (Once::First, Twice::Second);
    assert_eq!((once.name(), twice.name()), ("First", "second"));
    assert_eq!((Whole::First.name(), TwiceWhole::First.name()), ("w", "First"));
}
