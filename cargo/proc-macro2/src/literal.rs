//! Literals.
use crate::map::{self, sure};
use crate::repr::{show, token, Repr};
use crate::span::Repr as SpanRepr;
use crate::{compiler, print, LexError, Literal, Span};
use proved_tokens::pm_span::Span as ProvedSpan;
use proved_tokens::pm_token::Literal as Own;
use proved_tokens::shim;
#[cfg(procmacro2_semver_exempt)]
use proved_tokens::{literal_escaper::EscapeError, pm_token::ConversionErrorKind as OwnErrorKind};
use std::ffi::CStr;
use std::fmt::{self, Debug, Display};
use std::ops::RangeBounds;
use std::str::FromStr;

token!(Literal, Own);

impl Clone for Literal {
    #[inline(always)]
    fn clone(&self) -> Literal {
        match &self.repr {
            Repr::Own(literal) => Literal::own(literal.clone()),
            Repr::Compiler(literal) => inside(literal.clone()),
        }
    }
}

/// A literal of the compiler's.
// If it were inlined, both kinds of literals would meet in registers piece by piece, and a copy would take twice the
// time.
#[cold]
#[inline(never)]
fn inside(literal: proc_macro::Literal) -> Literal {
    Literal::compiler(literal)
}

macro_rules! literals {
    ($($(#[$doc:meta])* $name:ident($value:ident: $type:ty) => $given:expr;)*) => {$(
        $(#[$doc])*
        #[inline]
        pub fn $name($value: $type) -> Literal {
            #[cold]
            fn inside($value: $type) -> Literal {
                Literal::compiler(proc_macro::Literal::$name($value))
            }
            if compiler::inside() {
                inside($value)
            } else {
                Literal::own(sure(Own::$name($given)))
            }
        }
    )*};
}

macro_rules! numbers {
    ($($type:ident: $suffixed:ident, $unsuffixed:ident;)*) => {
        literals! {$(
            #[doc = concat!("The literal of the number with its type, as `1", stringify!($type), "`.")]
            ///
            /// In a stream a negative one stands as the mark `-` and the rest.
            $suffixed(n: $type) => n;
            /// The literal of the number without its type, as `1`.
            ///
            /// In a stream a negative one stands as the mark `-` and the rest.
            $unsuffixed(n: $type) => n;
        )*}
    };
}

macro_rules! floats {
    ($($type:ident: $suffixed:ident, $unsuffixed:ident;)*) => {$(
        #[doc = concat!("The literal of the number with its type, as `1", stringify!($type), "`.")]
        ///
        /// # Panics
        ///
        /// Where the number is infinite or none.
        pub fn $suffixed(f: $type) -> Literal {
            assert!(f.is_finite());
            if compiler::inside() {
                return inside(proc_macro::Literal::$suffixed(f));
            }
            Literal::made(&format!(concat!("{}", stringify!($type)), f))
        }

        /// The literal of the number without its type, always with a dot, as `1.0`.
        ///
        /// # Panics
        ///
        /// Where the number is infinite or none.
        pub fn $unsuffixed(f: $type) -> Literal {
            assert!(f.is_finite());
            if compiler::inside() {
                return inside(proc_macro::Literal::$unsuffixed(f));
            }
            // A few digits that read as the number are the shortest that do, which is what Rust prints.
            let tenths = (f * 10.0) as u32;
            if tenths < 1_000_000 && tenths as $type / 10.0 == f && f.is_sign_positive() {
                return Literal::tenths(tenths);
            }
            let text = f.to_string();
            Literal::made(&if text.contains('.') { text } else { text + ".0" })
        }
    )*};
}

impl Literal {
    numbers! {
        u8: u8_suffixed, u8_unsuffixed;
        u16: u16_suffixed, u16_unsuffixed;
        u32: u32_suffixed, u32_unsuffixed;
        u64: u64_suffixed, u64_unsuffixed;
        u128: u128_suffixed, u128_unsuffixed;
        usize: usize_suffixed, usize_unsuffixed;
        i8: i8_suffixed, i8_unsuffixed;
        i16: i16_suffixed, i16_unsuffixed;
        i32: i32_suffixed, i32_unsuffixed;
        i64: i64_suffixed, i64_unsuffixed;
        i128: i128_suffixed, i128_unsuffixed;
        isize: isize_suffixed, isize_unsuffixed;
    }

    floats! {
        f32: f32_suffixed, f32_unsuffixed;
        f64: f64_suffixed, f64_unsuffixed;
    }

    literals! {
        /// The string literal of a text.
        string(string: &str) => string;
        /// The literal of a character.
        character(ch: char) => ch;
        /// The literal of a byte, as `b'a'`.
        byte_character(byte: u8) => byte;
        /// The byte string literal of some bytes.
        byte_string(bytes: &[u8]) => bytes;
        /// The C string literal of a C string.
        c_string(string: &CStr) => string.to_bytes();
    }

    /// The literal of a text that is one, with no place.
    fn made(text: &str) -> Literal {
        Literal::own(sure(Own::from_str_unchecked(text)))
    }

    /// The literal of a number of tenths, which has at most nine digits before the dot.
    fn tenths(tenths: u32) -> Literal {
        let mut text = *b"000000000.0";
        text[10] += (tenths % 10) as u8;
        let at = shim::itoa::write_digits(u64::from(tenths / 10), &mut text, 9);
        Literal::made(std::str::from_utf8(&text[at..]).expect("it is ASCII"))
    }

    /// The span of a part of the literal, which is told in characters from where its span begins; `None` where the
    /// part ends before it begins or after the literal, where there are no span locations, and inside a macro, where
    /// a stable compiler doesn't tell.
    ///
    /// ```
    /// use proc_macro2::Literal;
    ///
    /// let literal: Literal = r#""ab{}""#.parse()?;
    /// let hole = literal.subspan(3..5);
    /// if let Some(hole) = hole {
    ///     // with span locations
    ///     assert_eq!(hole.source_text().as_deref(), Some("{}"));
    /// }
    /// assert!(literal.subspan(3..70).is_none());
    /// # Ok::<(), proc_macro2::LexError>(())
    /// ```
    pub fn subspan<R: RangeBounds<usize>>(&self, range: R) -> Option<Span> {
        match &self.repr {
            Repr::Own(literal) if cfg!(span_locations) => {
                literal.subspan(range.start_bound().cloned(), range.end_bound().cloned()).map(Span::own)
            }
            _ => None,
        }
    }

    /// The value of a string literal.
    ///
    /// ```
    /// use proc_macro2::Literal;
    ///
    /// let literal: Literal = r#""a\n\u{e9}""#.parse()?;
    /// assert_eq!(literal.str_value().unwrap(), "a\n\u{e9}");
    /// assert!(Literal::u8_suffixed(1).str_value().is_err());
    /// # Ok::<(), proc_macro2::LexError>(())
    /// ```
    #[cfg(procmacro2_semver_exempt)]
    pub fn str_value(&self) -> Result<String, ConversionErrorKind> {
        self.value(|literal| literal.str_value())
    }

    /// The value of a C string literal, with the zero that ends it.
    #[cfg(procmacro2_semver_exempt)]
    pub fn cstr_value(&self) -> Result<Vec<u8>, ConversionErrorKind> {
        self.value(|literal| literal.cstr_value())
    }

    /// The value of a byte string literal.
    #[cfg(procmacro2_semver_exempt)]
    pub fn byte_str_value(&self) -> Result<Vec<u8>, ConversionErrorKind> {
        self.value(|literal| literal.byte_str_value())
    }

    /// What the proved literal of its text answers.
    #[cfg(procmacro2_semver_exempt)]
    fn value<T>(&self, ask: impl FnOnce(&Own) -> Result<T, OwnErrorKind>) -> Result<T, ConversionErrorKind> {
        let answer = match &self.repr {
            Repr::Own(literal) => ask(literal),
            Repr::Compiler(literal) => ask(&sure(Own::from_str_unchecked(&literal.to_string()))),
        };
        answer.map_err(|kind| match kind {
            OwnErrorKind::FailedToUnescape(fault) => ConversionErrorKind::FailedToUnescape(fault),
            OwnErrorKind::InvalidLiteralKind => ConversionErrorKind::InvalidLiteralKind,
            OwnErrorKind::Memory(never) => match never {},
            _ => unreachable!("each case is above"),
        })
    }

    /// The literal of a text that is known to be one. For `quote!` alone.
    ///
    /// # Safety
    ///
    /// The text is a literal.
    // It does nothing unsafe: the public crate's is declared so, and callers expect it.
    #[doc(hidden)]
    #[allow(unsafe_code)]
    pub unsafe fn from_str_unchecked(repr: &str) -> Literal {
        if compiler::inside() {
            Literal::compiler(repr.parse().expect("the text is a literal"))
        } else {
            Literal::made(repr)
        }
    }
}

/// Why a literal has no value.
#[cfg(procmacro2_semver_exempt)]
#[derive(Debug, PartialEq, Eq)]
pub enum ConversionErrorKind {
    /// It is of the kind that was asked for, but its content has this fault.
    FailedToUnescape(EscapeError),
    /// It is of another kind, or has a suffix.
    InvalidLiteralKind,
}

impl FromStr for Literal {
    type Err = LexError;

    /// The literal that the whole text is, or `-` and a number. Nothing else may stand there, not even white space.
    ///
    /// ```
    /// use proc_macro2::Literal;
    ///
    /// let literal: Literal = "-0x1F_u8".parse()?;
    /// assert_eq!(literal.to_string(), "-0x1F_u8");
    /// assert!(" 1".parse::<Literal>().is_err());
    /// # Ok::<(), proc_macro2::LexError>(())
    /// ```
    fn from_str(repr: &str) -> Result<Literal, LexError> {
        if compiler::inside() {
            return compiler::read(repr, Own::is_whole(repr)).map(Literal::compiler);
        }
        let read = if cfg!(span_locations) {
            map::with(|map| Own::from_str(repr, map)).ok()
        } else {
            Own::is_whole(repr).then(|| sure(Own::from_str_unchecked(repr)))
        };
        read.map(Literal::own).ok_or_else(|| LexError::own(ProvedSpan::call_site()))
    }
}

show!(Display for Literal: literal, f => Display::fmt(literal.text(), f));
show!(Debug for Literal: literal, f => print::show_literal(literal, f));
