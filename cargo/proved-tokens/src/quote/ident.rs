//! Identifiers that are made from parts.
use crate::pm_span::Span;
use crate::pm_token::parts::name_of;
use crate::pm_token::Ident;
use core::fmt;
use std::borrow::{Cow, ToOwned};
use std::format;
use std::string::String;

/// A value that can be a part of a name in [`format_ident!`](crate::format_ident!).
///
/// These are identifiers (without their `r#`), texts, characters, `bool`s, unsigned numbers and references to them.
///
/// ```
/// use proved_tokens::quote::IdentFragment;
/// use proved_tokens::{format_ident, Ident, Span};
///
/// struct Field {
///     name: Ident,
/// }
///
/// impl IdentFragment for Field {
///     fn fmt(&self, f: &mut std::fmt::Formatter<'_>) -> std::fmt::Result {
///         self.name.fmt(f)
///     }
///
///     fn span(&self) -> Option<Span> {
///         Some(self.name.span())
///     }
/// }
///
/// let field = Field { name: Ident::new_raw("type", Span::call_site())? };
/// assert_eq!(format_ident!("set_{}", field), "set_type");
/// # Ok::<(), Box<dyn std::error::Error>>(())
/// ```
pub trait IdentFragment {
    /// Writes the value as a part of a name.
    ///
    /// ```
    /// use proved_tokens::format_ident;
    ///
    /// assert_eq!(format_ident!("{}_{:x}_{}", "a", 255u8, true), "a_ff_true");
    /// ```
    fn fmt(&self, f: &mut fmt::Formatter<'_>) -> fmt::Result;

    /// Returns the span of the value, or `None` if it has none.
    ///
    /// The first part that has a span gives it to the name.
    ///
    /// ```
    /// use proved_tokens::{format_ident, SourceMap, TokenStream, TokenTree};
    ///
    /// let mut map = SourceMap::new();
    /// let stream = TokenStream::from_str("a b", &mut map)?;
    /// let TokenTree::Ident(name) = &stream.trees()[1] else { panic!("it is a name") };
    /// assert_eq!(format_ident!("x{}_{}", 1u8, name).span().source_str(&map), Some("b"));
    /// # Ok::<(), Box<dyn std::error::Error>>(())
    /// ```
    fn span(&self) -> Option<Span> {
        None
    }
}

/// Writes the name without `r#`.
impl IdentFragment for Ident {
    fn fmt(&self, f: &mut fmt::Formatter<'_>) -> fmt::Result {
        fmt::Display::fmt(name_of(self), f)
    }

    fn span(&self) -> Option<Span> {
        Some(Ident::span(self))
    }
}

/// Implements `IdentFragment` by `Display`.
macro_rules! shown {
    ($($kind:ty)*) => {
        $(
            /// Writes what `Display` writes.
            impl IdentFragment for $kind {
                #[inline]
                fn fmt(&self, f: &mut fmt::Formatter<'_>) -> fmt::Result {
                    fmt::Display::fmt(self, f)
                }
            }
        )*
    };
}

shown! { str String char bool u8 u16 u32 u64 u128 usize }

/// Implements `IdentFragment` for pointers to a part.
macro_rules! pointers {
    ($([$($sign:tt)*] $pointer:ty;)*) => {
        $(
            /// Writes the part that the pointer points to.
            impl<$($sign)*> IdentFragment for $pointer {
                #[inline]
                fn fmt(&self, f: &mut fmt::Formatter<'_>) -> fmt::Result {
                    IdentFragment::fmt(&**self, f)
                }

                #[inline]
                fn span(&self) -> Option<Span> {
                    IdentFragment::span(&**self)
                }
            }
        )*
    };
}

pointers! {
    [T: IdentFragment + ?Sized] &T;
    [T: IdentFragment + ?Sized] &mut T;
    [T: IdentFragment + ToOwned + ?Sized] Cow<'_, T>;
}

/// A part in a form that `format!` takes.
#[doc(hidden)]
pub struct Part<'a, T: ?Sized>(pub &'a T);

impl<T: IdentFragment + ?Sized> Part<'_, T> {
    pub fn span(&self) -> Option<Span> {
        self.0.span()
    }
}

impl<T: IdentFragment + ?Sized> fmt::Display for Part<'_, T> {
    fn fmt(&self, f: &mut fmt::Formatter<'_>) -> fmt::Result {
        IdentFragment::fmt(self.0, f)
    }
}

macro_rules! bases {
    ($($base:ident)*) => {
        $(impl<T: fmt::$base + ?Sized> fmt::$base for Part<'_, T> {
            #[inline]
            fn fmt(&self, f: &mut fmt::Formatter<'_>) -> fmt::Result {
                fmt::$base::fmt(self.0, f)
            }
        })*
    };
}

bases! { Binary Octal LowerHex UpperHex }

/// Returns the identifier with this text, which may begin with `r#`. Panics if the text is not an identifier.
#[doc(hidden)]
#[track_caller]
pub fn named(name: fmt::Arguments<'_>, span: Option<Span>) -> Ident {
    let (text, span) = (format!("{name}"), span.unwrap_or_else(Span::call_site));
    let made = match text.strip_prefix("r#") {
        Some(raw) => Ident::new_raw(raw, span),
        None => Ident::new(&text, span),
    };
    made.unwrap_or_else(|error| panic!("`{text}` is no identifier: {error}"))
}

/// Makes an identifier from parts, as the macro of the crate `quote` does.
///
/// The rules are those of [`format!`](std::format!), but the parts are
/// [`IdentFragment`](crate::quote::IdentFragment)s. In the text a part is `{}` or has a name. The span is that of the
/// argument `span = ..`, or else of the first part that has one, or else the call site.
///
/// ```
/// use proved_tokens::{format_ident, Ident, Span};
///
/// let field = Ident::try_from("size")?;
/// assert_eq!(format_ident!("set_{}", field), "set_size");
/// assert_eq!(format_ident!("r#{}", "fn"), "r#fn");
/// assert_eq!(format_ident!("{name}{}", 1u8, name = "x", span = Span::call_site()), "x1");
/// # Ok::<(), Box<dyn std::error::Error>>(())
/// ```
///
/// # Panics
///
/// Panics if the text is not an identifier.
#[macro_export]
macro_rules! format_ident {
    ($text:expr) => { $crate::__format_ident! { [::core::option::Option::None, $text] } };
    ($text:expr, $($rest:tt)*) => { $crate::__format_ident! { [::core::option::Option::None, $text] $($rest)* } };
}

/// Takes the arguments one after the other, with the span so far and the arguments for `format!`.
#[doc(hidden)]
#[macro_export]
macro_rules! __format_ident {
    ([$span:expr, $($text:tt)*]) => { $crate::quote::named(::core::format_args!($($text)*), $span) };
    ([$old:expr, $($text:tt)*] span = $span:expr $(, $($rest:tt)*)?) => {
        $crate::__format_ident! { [::core::option::Option::Some::<$crate::Span>($span), $($text)*] $($($rest)*)? }
    };
    ([$span:expr, $($text:tt)*] $name:ident = $part:expr $(, $($rest:tt)*)?) => {
        match $crate::quote::Part(&$part) {
            part => $crate::__format_ident! { [$span.or(part.span()), $($text)*, $name = part] $($($rest)*)? }
        }
    };
    ([$span:expr, $($text:tt)*] $part:expr $(, $($rest:tt)*)?) => {
        match $crate::quote::Part(&$part) {
            part => $crate::__format_ident! { [$span.or(part.span()), $($text)*, part] $($($rest)*)? }
        }
    };
}
