//! The values that a hole can have.
use crate::pm_span::Span;
use crate::pm_stream::{Group, TokenStream, TokenTree};
use crate::pm_token::{Ident, Literal, Punct};
use crate::quoting::{Number, Value, Values};
use std::borrow::{Cow, ToOwned};
use std::boxed::Box;
use std::format;
use std::rc::Rc;
use std::string::String;
use std::vec::Vec;

/// A value that can replace a hole `#name` of [`quote!`](crate::quote!) or of a [`Template`](crate::quote::Template).
///
/// These are tokens, texts (as string literals), numbers with their suffixes, characters, `bool`s, and options of and
/// references to all these. Implement the trait for your own types. Their tokens keep their spans.
///
/// ```
/// use proved_tokens::quote::ToTokens;
/// use proved_tokens::{quote, Ident, TokenStream};
///
/// struct Field {
///     name: Ident,
///     kind: TokenStream,
/// }
///
/// impl ToTokens for Field {
///     fn to_tokens(&self, stream: &mut TokenStream) {
///         let Field { name, kind } = self;
///         stream.extend([quote! { #name: #kind }]);
///     }
/// }
///
/// let fields = [Field { name: "x".try_into()?, kind: "Vec<u8>".parse()? }];
/// assert_eq!(quote! { struct S { #( #fields ),* } }.to_string(), "struct S { x : Vec < u8 > }");
/// # Ok::<(), Box<dyn std::error::Error>>(())
/// ```
pub trait ToTokens {
    /// Adds the tokens of the value at the end of the stream.
    ///
    /// ```
    /// use proved_tokens::quote::ToTokens;
    /// use proved_tokens::TokenStream;
    ///
    /// let mut stream = TokenStream::new();
    /// ("a", Some(-1i8)).0.to_tokens(&mut stream);
    /// Some(-1i8).to_tokens(&mut stream);
    /// assert_eq!(stream.to_string(), r#""a" - 1i8"#);
    /// ```
    fn to_tokens(&self, stream: &mut TokenStream);

    /// Returns the tokens of the value.
    ///
    /// ```
    /// use proved_tokens::quote::ToTokens;
    ///
    /// assert_eq!('\n'.to_token_stream().to_string(), r"'\n'");
    /// ```
    fn to_token_stream(&self) -> TokenStream {
        let mut stream = TokenStream::new();
        self.to_tokens(&mut stream);
        stream
    }

    /// Returns the value of a hole that has this value.
    #[doc(hidden)]
    fn value(&self) -> Value<'_> {
        Value::OwnedStream(self.to_token_stream())
    }

    /// Returns the value of a hole that has a list of such values.
    #[doc(hidden)]
    fn values(list: &[Self]) -> Value<'_>
    where
        Self: Sized,
    {
        listed(list.iter().map(ToTokens::value))
    }

    /// Returns a list of such values as a value of another list.
    #[doc(hidden)]
    fn values_in_list(list: &[Self]) -> Value<'_>
    where
        Self: Sized,
    {
        Self::values(list)
    }
}

/// A value of a hole outside of repetitions. It is anything with tokens, or a slice of trees, which is put in whole.
#[doc(hidden)]
pub trait Alone {
    fn alone(&self) -> Value<'_>;
}

impl<T: ToTokens + ?Sized> Alone for T {
    fn alone(&self) -> Value<'_> {
        self.value()
    }
}

/// A value that can replace a hole inside a repetition `#( .. )*`.
///
/// It is any value that implements [`ToTokens`], or a slice, an array or a `Vec` of them, of which each turn takes the
/// next value. The values of a list can be lists again, for the repetitions inside. But a list of trees in another list
/// is one value with all of its trees.
///
/// ```
/// use proved_tokens::{quote, Ident};
///
/// let names = ["x", "y"].map(|name| Ident::try_from(name).expect("it is a name"));
/// let values = [vec![1u8, 2], vec![]];
/// let made = quote! { #( #names: [#( #values ),*] );* };
/// assert_eq!(made.to_string(), "x : [1u8 , 2u8] ; y : []");
/// ```
pub trait InTurns {
    /// Returns the value of a hole that has this value.
    #[doc(hidden)]
    fn in_turns(&self) -> Value<'_>;

    /// Returns the value of a hole that has a list of such values.
    #[doc(hidden)]
    fn lists(list: &[Self]) -> Value<'_>
    where
        Self: Sized,
    {
        listed(list.iter().map(InTurns::in_list))
    }

    /// Returns this value as a value of a list.
    #[doc(hidden)]
    fn in_list(&self) -> Value<'_> {
        self.in_turns()
    }

    /// Returns a list of such values as a value of another list.
    #[doc(hidden)]
    fn lists_in_list(list: &[Self]) -> Value<'_>
    where
        Self: Sized,
    {
        Self::lists(list)
    }
}

/// Returns the list of these values.
fn listed<'a>(values: impl Iterator<Item = Value<'a>>) -> Value<'a> {
    let mut list = Values::new();
    for value in values {
        let Ok(()) = list.push(value);
    }
    Value::List(list)
}

impl<T: ToTokens + ?Sized> InTurns for T {
    fn in_turns(&self) -> Value<'_> {
        self.value()
    }

    fn lists(list: &[T]) -> Value<'_>
    where
        T: Sized,
    {
        T::values(list)
    }

    fn lists_in_list(list: &[T]) -> Value<'_>
    where
        T: Sized,
    {
        T::values_in_list(list)
    }
}

/// Implements the traits for lists and references to them. Each type is given a second time with trees in it.
macro_rules! lists {
    ($([$($sign:tt)*] $list:ty, $trees:ty;)*) => {
        $(
            impl<T: InTurns, $($sign)*> InTurns for $list {
                #[inline]
                fn in_turns(&self) -> Value<'_> {
                    T::lists(&self[..])
                }

                #[inline]
                fn in_list(&self) -> Value<'_> {
                    T::lists_in_list(&self[..])
                }
            }

            impl<$($sign)*> Alone for $trees {
                #[inline]
                fn alone(&self) -> Value<'_> {
                    TokenTree::values_in_list(&self[..])
                }
            }
        )*
    };
}

lists! {
    [] [T], [TokenTree];
    [] &[T], &[TokenTree];
    [] Vec<T>, Vec<TokenTree>;
    [] &Vec<T>, &Vec<TokenTree>;
    [const N: usize] [T; N], [TokenTree; N];
    [const N: usize] &[T; N], &[TokenTree; N];
}

/// Implements `ToTokens` for pointers to a value.
macro_rules! pointers {
    ($([$($sign:tt)*] $pointer:ty;)*) => {
        $(
            /// The tokens are those of the value that the pointer points to.
            impl<$($sign)*> ToTokens for $pointer {
                #[inline]
                fn to_tokens(&self, stream: &mut TokenStream) {
                    (**self).to_tokens(stream);
                }

                #[inline]
                fn value(&self) -> Value<'_> {
                    (**self).value()
                }
            }
        )*
    };
}

pointers! {
    [T: ToTokens + ?Sized] &T;
    [T: ToTokens + ?Sized] &mut T;
    [T: ToTokens + ?Sized] Box<T>;
    [T: ToTokens + ?Sized] Rc<T>;
    [T: ToTokens + ToOwned + ?Sized] Cow<'_, T>;
}

/// The tokens are those of the value, or none for `None`.
impl<T: ToTokens> ToTokens for Option<T> {
    fn to_tokens(&self, stream: &mut TokenStream) {
        if let Some(value) = self {
            value.to_tokens(stream);
        }
    }

    fn value(&self) -> Value<'_> {
        self.as_ref().map_or(Value::Nothing, ToTokens::value)
    }
}

/// Implements `ToTokens` for types of the library, each with the expression that makes its trees.
macro_rules! known {
    ($($(#[$attribute:meta])* $kind:ty, $value:ident => $shown:expr, $tree:expr $(, $list:ident)?;)*) => {
        $(
            $(#[$attribute])*
            impl ToTokens for $kind {
                #[inline]
                fn to_tokens(&self, stream: &mut TokenStream) {
                    let $value = self;
                    stream.extend([$tree]);
                }

                #[inline]
                fn value(&self) -> Value<'_> {
                    let $value = self;
                    $shown
                }

                $(fn values(list: &[$kind]) -> Value<'_> {
                    Value::$list(list)
                })?
            }
        )*
    };
}

known! {
    /// The trees of the stream.
    TokenStream, stream => Value::Stream(stream), stream.clone(), Streams;
    /// The group.
    Group, group => Value::OwnedTree(group.clone().into()), group.clone();
    /// The identifier.
    Ident, ident => Value::Ident(ident), ident.clone(), Idents;
    /// The mark.
    Punct, mark => Value::OwnedTree(mark.clone().into()), mark.clone();
    /// The literal; a negative one is its `-` and the rest.
    Literal, literal => Value::Literal(literal), literal.clone(), Literals;
    /// The character literal.
    char, c => Value::Character(*c), character(*c);
    /// The identifier `true` or `false`.
    bool, truth => Value::Boolean(*truth), word(if *truth { "true" } else { "false" });
}

/// The tree; a negative literal is its `-` and the rest.
impl ToTokens for TokenTree {
    fn to_tokens(&self, stream: &mut TokenStream) {
        stream.extend([self.clone()]);
    }

    fn value(&self) -> Value<'_> {
        Value::Tree(self)
    }

    fn values(list: &[TokenTree]) -> Value<'_> {
        Value::Trees(list)
    }

    fn values_in_list(list: &[TokenTree]) -> Value<'_> {
        Value::OwnedStream(list.into())
    }
}

fn character(c: char) -> Literal {
    let Ok(literal) = Literal::character(c);
    literal
}

fn word(text: &str) -> Ident {
    Ident::new(text, Span::call_site()).expect("it is a word")
}

/// Implements `ToTokens` for texts.
macro_rules! texts {
    ($($text:ty)*) => {
        $(
            /// The string literal of the text.
            impl ToTokens for $text {
                #[inline]
                fn to_tokens(&self, stream: &mut TokenStream) {
                    stream.extend([Literal::from(&self[..])]);
                }

                #[inline]
                fn value(&self) -> Value<'_> {
                    Value::String(self)
                }
            }
        )*
    };
}

texts! { str String }

/// Implements `ToTokens` for numbers, each with the function that makes its literal.
macro_rules! numbers {
    ($($number:ident $case:ident $made:ident)*) => {
        $(
            /// The literal with its suffix; a negative one is its `-` and the rest.
            impl ToTokens for $number {
                #[inline]
                fn to_tokens(&self, stream: &mut TokenStream) {
                    let Ok(literal) = Literal::$made(*self);
                    stream.extend([literal]);
                }

                #[inline]
                fn value(&self) -> Value<'_> {
                    Value::Number(Number::$case(*self))
                }
            }
        )*
    };
}

numbers! {
    u8 U8 u8_suffixed u16 U16 u16_suffixed u32 U32 u32_suffixed u64 U64 u64_suffixed u128 U128 u128_suffixed
    usize Usize usize_suffixed i8 I8 i8_suffixed i16 I16 i16_suffixed i32 I32 i32_suffixed i64 I64 i64_suffixed
    i128 I128 i128_suffixed isize Isize isize_suffixed
}

/// Implements `ToTokens` for floats.
macro_rules! floats {
    ($($float:ident)*) => {
        $(
            /// The literal with its suffix; a negative one is its `-` and the rest. In a template a float that is
            /// infinite or not a number is the error [`NotFinite`](crate::error::TemplateError::NotFinite). Elsewhere
            /// it has no tokens.
            impl ToTokens for $float {
                #[inline]
                fn to_tokens(&self, stream: &mut TokenStream) {
                    if let Value::OwnedTree(tree) = self.value() {
                        stream.extend([tree]);
                    }
                }

                #[inline]
                fn value(&self) -> Value<'_> {
                    if !self.is_finite() {
                        return Value::NotFinite;
                    }
                    let text = format!("{self}{}", stringify!($float));
                    let Ok(literal) = Literal::from_str_unchecked(&text);
                    Value::OwnedTree(literal.into())
                }
            }
        )*
    };
}

floats! { f32 f64 }
