use std::cell::RefCell;
use traced::traced;

thread_local! {
    static SEEN: RefCell<Vec<(&'static str, bool)>> = const { RefCell::new(Vec::new()) };
}

fn log(name: &'static str, begins: bool) {
    SEEN.with_borrow_mut(|seen| seen.push((name, begins)));
}

/// It is left early where the number is odd.
#[traced(log)]
fn half<T>(number: T) -> Option<T>
where
    T: Copy + PartialEq + std::ops::Rem<Output = T> + std::ops::Div<Output = T> + From<u8>,
{
    if number % T::from(2) != T::from(0) {
        return None;
    }
    Some(number / T::from(2))
}

#[traced(crate::log)]
fn r#fn() -> [u8; { const COUNT: usize = 2; COUNT }] {
    [1, 2]
}

#[traced(self::log)]
fn quarter(number: u32) -> Option<u32> {
    half(half(number)?)
}

#[test]
fn each_function_says_when_it_begins_and_when_it_is_left() {
    assert_eq!((quarter(12), quarter(7)), (Some(3), None));
    let seen = SEEN.take();
    let half = [("half", true), ("half", false)];
    let twice = [&half[..], &half].concat();
    let around = |inside: &[_]| [&[("quarter", true)], inside, &[("quarter", false)]].concat();
    assert_eq!(seen, [around(&twice), around(&half)].concat());
}

enum Side {
    Left,
    Right,
}

#[traced(log)]
fn is_left(side: &Side, _guard: u8) -> bool {
    #![allow(dead_code)]
    //! The body has attributes, and names as the prologue.
    use Side::*;
    matches!(side, Left) && _guard > 1
}

#[test]
fn names_of_the_body_stay_its_own() {
    assert_eq!([is_left(&Side::Left, 2), is_left(&Side::Right, 2)], [true, false]);
    assert_eq!(SEEN.take(), [("is_left", true), ("is_left", false)].repeat(2));
}

#[test]
fn a_raw_name_is_printed_as_it_is_written() {
    assert_eq!(r#fn(), [1, 2]);
    assert_eq!(SEEN.take(), [("r#fn", true), ("r#fn", false)]);
}
