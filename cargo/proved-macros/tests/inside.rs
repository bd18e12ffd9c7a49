//! Streams go over and come back inside macros, where the tokens are the compiler's.
#![allow(clippy::all)] // Forms as callers may write them.
use inside::{docs_as_read, lines_and_columns, literals_as_read, more, there_and_back};

pub const ONE: u8 = 1;

/// A function whose tokens are of two macros' and a caller's making.
macro_rules! function {
    ($name:ident, $variable:ident, $value:expr) => {
        /// It has a "doc" comment.
        #[there_and_back]
        fn $name<'a>(text: &'a str) -> (&'a str, u8, u8, i32) {
            let a = $crate::ONE;
            let $variable = 2;
            (text, a, $variable, $value * 2)
        }
    };
}

function!(r#fn, a, -1 - 2);

#[test]
fn names_are_resolved_as_before() {
    // One `a` is the macro's and another its caller's; the value is multiplied as a whole.
    assert_eq!(r#fn("text"), ("text", 1, 2, -6));
}

#[there_and_back]
mod every_form {
    #![allow(dead_code)]
    //! Inner.
    pub const TEXTS: (&str, &[u8], &str, char, u8, f64) = ("a\n\"", b"\xFF", r##"a"#b"##, '\'', b'\n', 1_0.5e-1);
    pub const SUM: i32 = -1 + 0x1F + 0b1i32 << 1;
    pub fn choose(x: Option<u8>) -> u8 {
        match x {
            Some(1..=9) | None => 'a: { break 'a 0 },
            Some(other) if other != 3 && !(other >= 255) => other,
            Some(_) => u8::MAX,
        }
    }
}

#[test]
fn every_form_is_compiled_as_before() {
    assert_eq!(every_form::TEXTS, ("a\n\"", &[0xFF][..], "a\"#b", '\'', b'\n', 1.05));
    assert_eq!((every_form::SUM, every_form::choose(Some(12)), every_form::choose(None)), (62, 12, 0));
}

#[more]
mod blocks {
    pub fn r#loop(x: &'static [i64]) -> i64 {
        let sum = 'a: {
            break 'a x[0] - -2i64 << 1;
        };
        {
            sum + ("\u{E9}".len() + 1_0) as i64
        }
    }
}

#[test]
fn a_changed_group_is_made_of_its_trees() {
    assert_eq!(blocks::r#loop(&[1]), 18);
}

#[test]
fn each_token_and_delimiter_has_its_span() {
    let from = line!();
    let note = lines_and_columns!(a
        += (b
      ) 'c');
    let wanted = [(1, 35), (2, 9), (2, 10), (2, 12), (3, 7), (3, 9)];
    assert_eq!(note, wanted.map(|(line, column)| (from + line, column)));
}

#[test]
fn new_literals_are_those_that_the_compiler_reads() {
    let integers = literals_as_read! {
        0 1 10 007 1_0 18446744073709551615 18446744073709551616 340282366920938463463374607431768211455
        0u8 255u8 256u8 65535u16 65536u16 7u32 4294967296u32 8u64 9usize 9u128 1i8 128i8 2i16 2147483647i32
        2147483648i32 9223372036854775807i64 9223372036854775808i64 1isize 1i128 01u8 1_u8 0x1F 0xFFu8 0o17
        0b1_1u16 1f32 1e3 1E3 1.0 2.5f64 1. 1e-3f64 1_0.5e-1
    };
    let characters = literals_as_read! {
        'a' ' ' '~' '"' '\'' '\\' '\n' '\0' '\x41' '\u{41}' 'é' b'a' b' ' b'"' b'\'' b'\\' b'\xFF'
    };
    let strings = literals_as_read! {
        "" "a" "it's" "a b~" "\"" "\'" "\\" "\n" "\x41" "é" "a
        b" r"" r"a" r#"a"b"# b"" b"a b" b"it's" b"\"" b"\xFF" b"\0" br"a" br#"""# c"a" c"\xFF" cr"a"
    };
    assert_eq!((integers, characters, strings), (41, 17, 25));
}

#[test]
fn the_compiler_reads_doc_comments_as_their_attributes() {
    // Comments of one line hold 3,125 texts after `///` and 3,906 after `//!`, and blocks 3,002 and 4,088 others.
    assert_eq!(docs_as_read!(), 14_121);
}
