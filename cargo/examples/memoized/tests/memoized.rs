//! Tests of the results of memoized functions, and of how often they are computed.
#![allow(improper_ctypes_definitions)]
use memoized::memoized;
use std::cell::Cell;

thread_local! {
    static CALLS: Cell<u32> = const { Cell::new(0) };
}

fn called() {
    CALLS.set(CALLS.get() + 1);
}

/// This function calls itself, so it finds its earlier results.
#[memoized]
pub(crate) fn fibonacci(n: u64) -> u64 {
    called();
    if n < 2 {
        n
    } else {
        fibonacci(n - 1) + fibonacci(n - 2)
    }
}

#[test]
fn each_list_of_arguments_is_computed_once() {
    CALLS.set(0);
    assert_eq!((fibonacci(50), CALLS.get()), (12586269025, 51));
    assert_eq!((fibonacci(49), CALLS.get()), (7778742049, 51));
}

struct Point {
    _x: u8,
}

#[memoized]
unsafe extern "C" fn joined((key, _): (String, [u8; 2]), mut value: std::vec::Vec<u8>, kept: u8) -> Result<String, ()> {
    called();
    value.push(kept);
    let (value, argument0) = (Ok::<_, ()>(value), Point { _x: 1 }._x);
    value.map(|value| format!("{key}{value:?}{argument0}"))
}

#[memoized]
fn nothing() {
    called();
}

#[test]
fn patterns_and_names_of_the_body_stay_its_own() {
    CALLS.set(0);
    for _ in 0..3 {
        let answer = unsafe { joined(("a".to_string(), [1, 2]), vec![3], 4) };
        assert_eq!(answer, Ok("a[3, 4]1".to_string()));
        nothing();
    }
    assert_eq!(CALLS.get(), 2);
}

macro_rules! function {
    ($vis:vis $name:ident($argument:ident: $t:ty) -> $answer:path, $e:expr, $m:meta, $l:literal, $b:block) => {
        #[memoized]
        #[$m]
        $vis extern $l fn $name($argument: $t) -> $answer {
            called();
            let _: u8 = $b;
            $e * 2
        }
    };
}

macro_rules! twice_function {
    ($vis:vis $name:ident($argument:ident: $t:ty) -> $answer:path, $e:expr, $m:meta, $l:literal, $b:block) => {
        function!($vis $name($argument: $t) -> $answer, $e, $m, $l, $b);
    };
}

/// A function whose body is passed as a whole.
macro_rules! body {
    ($name:ident($argument:ident: $t:ty), $b:block) => {
        #[memoized]
        fn $name($argument: $t) -> $t $b
    };
}

macro_rules! twice_body {
    ($name:ident($argument:ident: $t:ty), $b:block) => {
        body!($name($argument: $t), $b);
    };
}

body!(body_once(number: u8), {
    called();
    number + 1
});
twice_body!(body_twice(number: u16), {
    called();
    return number + 2;
});

function!(pub twice(number: u32) -> u32, number + 1, allow(dead_code), "Rust", { 1 });
twice_function!(pub(crate) passed_on(number: u8) -> std::primitive::u8, number + 1, inline, "C", { 1 });

#[test]
fn fragments_are_taken_over() {
    CALLS.set(0);
    assert_eq!((twice(1), twice(1), CALLS.get()), (4, 4, 1));
    assert_eq!((passed_on(2), passed_on(2), CALLS.get()), (6, 6, 2));
    assert_eq!((body_once(3), body_once(3), CALLS.get()), (4, 4, 3));
    assert_eq!((body_twice(3), body_twice(3), CALLS.get()), (5, 5, 4));
}
