//! The attribute inside of macros by example, whose fragments are groups without delimiters, through one and two.
use std::cell::RefCell;
use traced::traced;

thread_local! {
    static SEEN: RefCell<Vec<(&'static str, bool)>> = const { RefCell::new(Vec::new()) };
}

fn log(name: &'static str, begins: bool) {
    SEEN.with_borrow_mut(|seen| seen.push((name, begins)));
}

macro_rules! function {
    ($v:vis $name:ident, $t:ty, $e:expr, $p:path, $m:meta, $lt:lifetime, $l:literal, $b:block) => {
        #[traced(log)]
        #[$m]
        $v extern $l fn $name<$lt, T: $p + $lt>(number: $t, _other: &$lt T) -> $t
        where
            $t: $p,
            &$lt T: $p,
        {
            number + $e * 2 + $b
        }
    };
}

macro_rules! twice_function {
    ($v:vis $name:ident, $t:ty, $e:expr, $p:path, $m:meta, $lt:lifetime, $l:literal, $b:block) => {
        function!($v $name, $t, $e, $p, $m, $lt, $l, $b);
    };
}

function!(pub(crate) once, u32, 1 + 1, Copy, inline, 'a, "C", { 0 });
twice_function!(twice, u32, 1 + 1, std::marker::Copy, allow(dead_code), 'b, "Rust", { 0 });

struct Number(u8);

/// A method, whose receiver has a lifetime.
macro_rules! method {
    ($name:ident, $lt:lifetime, $t:ty) => {
        impl Number {
            #[traced(log)]
            fn $name<$lt>(self: &$lt Self, _other: &$lt $t) -> &$lt $t {
                &self.0
            }
        }
    };
}

macro_rules! twice_method {
    ($name:ident, $lt:lifetime, $t:ty) => {
        method!($name, $lt, $t);
    };
}

method!(method_once, 'a, u8);
twice_method!(method_twice, 'b, u8);

macro_rules! item {
    ($i:item) => {
        #[traced(log)]
        $i
    };
}

macro_rules! twice_item {
    ($i:item) => {
        item! { $i }
    };
}

item! {
    fn whole() -> u8 {
        3
    }
}
twice_item! {
    pub(crate) fn twice_whole() -> u8 {
        5
    }
}

macro_rules! path {
    ($name:ident, $p:path) => {
        #[traced($p)]
        fn $name() -> u8 {
            4
        }
    };
}

macro_rules! twice_path {
    ($name:ident, $p:path) => {
        path!($name, $p);
    };
}

path!(by_path, crate::log);
twice_path!(twice_by_path, self::log);

/// A function and a method whose bodies are passed as a whole.
macro_rules! body {
    ($name:ident, $b:block, $method:ident, $of:block) => {
        #[traced(log)]
        pub(crate) fn $name() -> u8 $b

        impl Number {
            #[traced(log)]
            fn $method<T>(_: T) -> Self
            where
                T: Copy,
            $of
        }
    };
}

macro_rules! twice_body {
    ($name:ident, $b:block, $method:ident, $of:block) => {
        body!($name, $b, $method, $of);
    };
}

body!(body_once, { 8 }, number_once, { Number(1 + 1) });
twice_body!(body_twice, { return 9 }, number_twice, { Self(10) });

#[test]
fn fragments_are_taken_over() {
    assert_eq!((once(1, &2u8), twice(1, &'a'), whole(), twice_whole()), (5, 5, 3, 5));
    assert_eq!((by_path(), twice_by_path()), (4, 4));
    assert_eq!((*Number(6).method_once(&0), *Number(7).method_twice(&0)), (6, 7));
    assert_eq!((body_once(), body_twice()), (8, 9));
    assert_eq!((Number::number_once(()).0, Number::number_twice('a').0), (2, 10));
    let names = [
        "once", "twice", "whole", "twice_whole", "by_path", "twice_by_path", "method_once", "method_twice", "body_once",
        "body_twice", "number_once", "number_twice",
    ];
    let wanted: Vec<_> = names.into_iter().flat_map(|name| [(name, true), (name, false)]).collect();
    assert_eq!(SEEN.take(), wanted);
}
