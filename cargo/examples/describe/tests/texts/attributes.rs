//! The entries of `#[describe(..)]`.

use crate::{hidden, other, Describe, Silent};
use describe::Describe;

mod functions {
    pub mod inner {
        pub fn hexadecimal(value: &u8) -> String {
            format!("{value:#x}")
        }
    }
}

struct Holder<T>(T);

impl<T: std::fmt::Debug> Holder<T> {
    fn debug(value: &T) -> String {
        format!("{value:?}")
    }
}

#[test]
fn skipped_fields() {
    #[derive(Describe)]
    struct Account {
        name: String,
        #[describe(skip)]
        #[allow(dead_code)]
        password: Silent,
    }
    let account = Account { name: "a".to_string(), password: Silent };
    assert_eq!(account.describe(), "Account { name: a }");
}

#[test]
fn all_fields_skipped() {
    #[derive(Describe)]
    struct Named {
        #[describe(skip)]
        _a: Silent,
    }
    #[derive(Describe)]
    struct Tuple(#[describe(skip)] Silent, #[describe(skip)] Silent);
    assert_eq!(Named { _a: Silent }.describe() + &Tuple(Silent, Silent).describe(), "Named {}Tuple()");
}

#[test]
fn skipped_field_before_others() {
    #[derive(Describe)]
    struct Tuple(#[describe(skip)] Silent, u8, #[describe(skip)] Silent, u8);
    assert_eq!(Tuple(Silent, 1, Silent, 2).describe(), "Tuple(1, 2)");
}

#[test]
fn renamed_fields() {
    #[derive(Describe)]
    struct Person {
        #[describe(rename = "first name")]
        first: u8,
        #[describe(rename = r#"the "last" {name}"#)]
        last: u8,
        #[describe(rename = "\u{e9}t\x61t\n")]
        r#final: u8,
    }
    let person = Person { first: 1, last: 2, r#final: 3 };
    assert_eq!(person.describe(), "Person { first name: 1, the \"last\" {name}: 2, état\n: 3 }");
}

#[test]
fn renamed_types() {
    #[derive(Describe)]
    #[describe(rename = "{a box}")]
    struct Tuple(u8);
    #[derive(Describe)]
    #[describe(rename = "")]
    struct Empty;
    assert_eq!(Tuple(1).describe() + &Empty.describe(), "{a box}(1)");
}

#[test]
fn functions_of_fields() {
    #[derive(Describe)]
    struct Values {
        #[describe(with = functions::inner::hexadecimal)]
        color: u8,
        #[describe(with = crate::hidden)]
        silent: Silent,
        #[describe(with = Holder::<Vec<(u8, char)>>::debug)]
        list: Vec<(u8, char)>,
        #[describe(with = ::std::string::ToString::to_string)]
        text: &'static str,
        #[describe(with = Self::own)]
        own: Silent,
    }
    impl Values {
        fn own(_: &Silent) -> String {
            "own".to_string()
        }
    }
    let values = Values { color: 255, silent: Silent, list: vec![(1, 'b')], text: "c", own: Silent };
    assert_eq!(values.describe(), "Values { color: 0xff, silent: hidden, list: [(1, 'b')], text: c, own: own }");
}

#[test]
fn functions_that_take_another_reference() {
    fn length(text: &str) -> String {
        text.len().to_string()
    }
    #[derive(Describe)]
    struct Name(#[describe(with = length)] String);
    assert_eq!(Name("four".to_string()).describe(), "Name(4)");
}

#[test]
fn closures_in_fields() {
    fn call<'a>(value: &Option<Box<dyn Fn() -> u8 + 'a>>) -> String {
        value.as_ref().map_or("no call".to_string(), |call| call().to_string())
    }
    #[derive(Describe)]
    struct Lazy<'a> {
        #[describe(with = call)]
        value: Option<Box<dyn Fn() -> u8 + 'a>>,
        #[describe(with = hidden)]
        action: Option<Box<dyn Fn() + 'a>>,
    }
    let number = 5;
    let lazy = Lazy { value: Some(Box::new(|| number)), action: Some(Box::new(|| ())) };
    assert!(lazy.action.is_some());
    assert_eq!(lazy.describe(), "Lazy { value: 5, action: hidden }");
}

#[test]
fn several_attributes_add_up() {
    #[derive(Describe)]
    #[describe(rename = "Renamed")]
    #[describe(crate = crate::other)]
    struct Both {
        /// A comment between them.
        #[describe(rename = "a")]
        #[allow(dead_code)]
        #[describe(with = hidden)]
        first: Silent,
        #[describe(rename = "b", with = hidden,)]
        second: Silent,
        #[describe()]
        third: u8,
    }
    let both = Both { first: Silent, second: Silent, third: 3 };
    assert_eq!(other::Describe::describe(&both), "Renamed { a: hidden, b: hidden, third: other 3 }");
}

#[test]
fn traits_in_other_modules() {
    #[derive(Describe)]
    #[describe(crate = other)]
    struct Generic<T>(T);
    #[derive(Describe)]
    #[describe(crate = super::other)]
    struct Super(u8);
    #[derive(Describe)]
    #[describe(crate = crate)]
    struct Root(u8);
    assert_eq!(other::Describe::describe(&Generic(1_u8)), "Generic(other 1)");
    assert_eq!(other::Describe::describe(&Super(2)), "Super(other 2)");
    assert_eq!(Root(3).describe(), "Root(3)");
}
