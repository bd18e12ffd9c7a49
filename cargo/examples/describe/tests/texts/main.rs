//! The texts that `describe` returns.

#![deny(warnings)]

mod attributes;
mod enums;
mod fragments;
mod generics;
mod structs;

/// A value that says in words what it is.
pub trait Describe {
    fn describe(&self) -> String;
}

/// Implements the trait for types that can be printed.
macro_rules! describe_by_display {
    ($($t:ty),*) => { $(impl Describe for $t {
        fn describe(&self) -> String {
            self.to_string()
        }
    })* };
}

describe_by_display!(u8, i32, bool, char, str, String);

impl<T: Describe + ?Sized> Describe for &T {
    fn describe(&self) -> String {
        format!("&{}", (**self).describe())
    }
}

impl<T: Describe + ?Sized> Describe for Box<T> {
    fn describe(&self) -> String {
        (**self).describe()
    }
}

impl<T: Describe> Describe for [T] {
    fn describe(&self) -> String {
        let parts: Vec<String> = self.iter().map(Describe::describe).collect();
        format!("[{}]", parts.join(", "))
    }
}

impl<T: Describe, const N: usize> Describe for [T; N] {
    fn describe(&self) -> String {
        self.as_slice().describe()
    }
}

impl<T: Describe> Describe for Vec<T> {
    fn describe(&self) -> String {
        self.as_slice().describe()
    }
}

impl<T: Describe> Describe for Option<T> {
    fn describe(&self) -> String {
        self.as_ref().map_or("nothing".to_string(), Describe::describe)
    }
}

impl<A: Describe, B: Describe> Describe for (A, B) {
    fn describe(&self) -> String {
        format!("({}, {})", self.0.describe(), self.1.describe())
    }
}

impl<T> Describe for for<'a> fn(&'a T) -> bool {
    fn describe(&self) -> String {
        "a function".to_string()
    }
}

/// A type that has no text.
pub struct Silent;

/// A function for `with` that takes any value.
pub fn hidden<T: ?Sized>(_: &T) -> String {
    "hidden".to_string()
}

pub mod other {
    /// Another trait of the same name.
    pub trait Describe {
        fn describe(&self) -> String;
    }

    impl Describe for u8 {
        fn describe(&self) -> String {
            format!("other {self}")
        }
    }
}
