//! The macros `quote!` and `quote_spanned!`.
#![doc(hidden)]
use crate::quote::{InTurns, ToTokens};
use core::ops::BitOr;
use std::vec::Vec;

/// The state of a repetition: no list was named in it so far, or a list was named.
pub struct ThisRepetitionNamesNoList;
pub struct NamesList;

impl BitOr<ThisRepetitionNamesNoList> for ThisRepetitionNamesNoList {
    type Output = ThisRepetitionNamesNoList;

    fn bitor(self, _: ThisRepetitionNamesNoList) -> ThisRepetitionNamesNoList {
        self
    }
}

impl BitOr<NamesList> for ThisRepetitionNamesNoList {
    type Output = NamesList;

    fn bitor(self, list: NamesList) -> NamesList {
        list
    }
}

impl<T> BitOr<T> for NamesList {
    type Output = NamesList;

    fn bitor(self, _: T) -> NamesList {
        self
    }
}

/// A value in a repetition that is the same in each turn.
pub trait Single {
    fn gathered(&self) -> (&Self, ThisRepetitionNamesNoList) {
        (self, ThisRepetitionNamesNoList)
    }
}

impl<T: ToTokens + ?Sized> Single for T {}

/// A list of values.
pub trait Listed {
    fn gathered(&self) -> (&Self, NamesList) {
        (self, NamesList)
    }
}

impl<T: InTurns> Listed for [T] {}

impl<T: InTurns> Listed for Vec<T> {}

impl<T: InTurns, const N: usize> Listed for [T; N] {}

/// An iterator in a repetition. Its items become a list.
pub trait Iterated: Iterator + Sized {
    fn gathered(self) -> (Vec<Self::Item>, NamesList) {
        (self.collect(), NamesList)
    }
}

impl<T: Iterator> Iterated for T {}

/// Makes a stream of tokens in which each `#name` is replaced by the variable `name`, as the macro of the crate `quote`
/// does.
///
/// The variable's type must implement [`ToTokens`](crate::quote::ToTokens), or [`InTurns`](crate::quote::InTurns) in a
/// repetition. Outside of repetitions it can also be a slice of trees, all of which are put in. In `#( .. )*` and
/// `#( .. ),*` a list or an iterator gives its next value in each turn. A list is used up by the outermost repetition
/// that names it, so a repetition inside needs a list of lists. If no variable has the name, rustc reports an error at
/// the name.
///
/// Tokens from variables keep their spans. All others have the span of the call site. The template is parsed at the
/// first call in each thread, and kept.
///
/// ```
/// use proved_tokens::{quote, Ident};
///
/// let name = Ident::try_from("Color")?;
/// let variants = ["Red", "Blue"].map(|name| Ident::try_from(name).expect("it is a name"));
/// let texts = variants.iter().map(|variant| variant.to_string().to_lowercase());
/// let made = quote! {
///     impl #name {
///         fn text(&self) -> &'static str {
///             match self { #( #name::#variants => #texts ),* }
///         }
///     }
/// };
/// let wanted = r#"impl Color { fn text (& self) -> & 'static str
///     { match self { Color :: Red => "red" , Color :: Blue => "blue" } } }"#;
/// assert!(made.same_tokens(&wanted.parse()?));
/// # Ok::<(), Box<dyn std::error::Error>>(())
/// ```
///
/// A name that is not in scope does not compile:
///
/// ```compile_fail,E0425
/// let name = "a";
/// proved_tokens::quote! { f(#nane) };
/// ```
///
/// A list outside of repetitions does not compile, and neither does a repetition without a list:
///
/// ```compile_fail,E0277
/// let names = ["a", "b"];
/// proved_tokens::quote! { f(#names) };
/// ```
///
/// ```compile_fail,E0308
/// let name = "a";
/// proved_tokens::quote! { #( f(#name); )* };
/// ```
///
/// # Panics
///
/// Panics if the lists of a repetition have different lengths, or if a float is infinite or not a number. Panics also
/// if an inner repetition names no list of lists. The message is that of a
/// [`TemplateFault`](crate::quote::TemplateFault).
#[macro_export]
macro_rules! quote {
    () => { $crate::TokenStream::new() };
    ($($tokens:tt)*) => {{
        #[allow(unused_mut)]
        let mut holes = $crate::quote::Holes::new();
        $crate::__each_hole! { holes @ ($($tokens)*) }
        holes.fill(&$crate::__template! { $($tokens)* })
    }};
}

/// Makes a stream as [`quote!`] does, but with the given span on all tokens that do not come from variables.
///
/// ```
/// use proved_tokens::{quote_spanned, SourceMap, TokenStream};
///
/// let mut map = SourceMap::new();
/// let kind = TokenStream::from_str("Vec<u8>", &mut map)?;
/// let check = quote_spanned! {kind.trees()[0].span()=> struct Check where #kind: Sync; };
/// let texts: Vec<_> = check.trees().iter().map(|tree| tree.span().source_str(&map).unwrap_or("")).collect();
/// assert_eq!(texts, ["Vec", "Vec", "Vec", "Vec", "<", "u8", ">", "Vec", "Vec", "Vec"]);
/// # Ok::<(), Box<dyn std::error::Error>>(())
/// ```
///
/// # Panics
///
/// Panics in the same cases as [`quote!`].
#[macro_export]
macro_rules! quote_spanned {
    ($span:expr =>) => {{
        let _: $crate::Span = $span;
        $crate::TokenStream::new()
    }};
    ($span:expr => $($tokens:tt)*) => {{
        let span: $crate::Span = $span;
        #[allow(unused_mut)]
        let mut holes = $crate::quote::Holes::new();
        $crate::__each_hole! { holes @ ($($tokens)*) }
        holes.fill(&$crate::__template! { $($tokens)* }.at(span))
    }};
}

/// Returns the template of the tokens. Each call site keeps its template, once for each thread.
#[doc(hidden)]
#[macro_export]
macro_rules! __template {
    ($($tokens:tt)*) => {{
        ::std::thread_local! {
            static TEMPLATE: $crate::quote::Template =
                $crate::quote::Template::of(&[$($crate::__piece! { $tokens }),*]);
        }
        TEMPLATE.with(::std::clone::Clone::clone)
    }};
}

#[doc(hidden)]
#[macro_export]
macro_rules! __piece {
    (($($inside:tt)*)) => {
        $crate::quote::Piece::Group($crate::Delimiter::Parenthesis, &[$($crate::__piece! { $inside }),*])
    };
    ([$($inside:tt)*]) => {
        $crate::quote::Piece::Group($crate::Delimiter::Bracket, &[$($crate::__piece! { $inside }),*])
    };
    ({$($inside:tt)*}) => {
        $crate::quote::Piece::Group($crate::Delimiter::Brace, &[$($crate::__piece! { $inside }),*])
    };
    ($token:tt) => { $crate::quote::Piece::Token(::core::stringify!($token)) };
}

/// Adds the variable of each `#name` to the holes. Each token is matched with the one before it and the two after it.
#[doc(hidden)]
#[macro_export]
macro_rules! __each_hole {
    ($holes:ident $list:tt ()) => {};
    ($holes:ident $list:tt ($($tokens:tt)*)) => {
        $crate::__each_window! { $holes $list (@ $($tokens)*) ($($tokens)* @) ($($tokens)* @ @) ($($tokens)* @ @ @) }
    };
}

#[doc(hidden)]
#[macro_export]
macro_rules! __each_window {
    (
        $holes:ident $list:tt ($($before:tt)*) ($($here:tt)*)
        ($first:tt $($after:tt)*) ($one:tt $other:tt $($next:tt)*)
    ) => {
        $($crate::__hole! { $holes $list $before $here $after $next })*
    };
}

/// Adds the hole at one token. Outside of repetitions `$list` is `@`. In a repetition it is the variable whose type
/// shows whether a list is named there.
#[doc(hidden)]
#[macro_export]
macro_rules! __hole {
    ($holes:ident @ # ($($inside:tt)*) * $next:tt) => { $crate::__repetition! { $holes ($($inside)*) } };
    ($holes:ident @ # ($($inside:tt)*) $mark:tt *) => { $crate::__repetition! { $holes ($($inside)*) } };
    ($holes:ident $list:tt $before:tt ($($inside:tt)*) $after:tt $next:tt) => {
        $crate::__each_hole! { $holes $list ($($inside)*) }
    };
    ($holes:ident $list:tt $before:tt [$($inside:tt)*] $after:tt $next:tt) => {
        $crate::__each_hole! { $holes $list ($($inside)*) }
    };
    ($holes:ident $list:tt $before:tt {$($inside:tt)*} $after:tt $next:tt) => {
        $crate::__each_hole! { $holes $list ($($inside)*) }
    };
    ($holes:ident @ # $name:ident $after:tt $next:tt) => { $holes.put(::core::stringify!($name), &$name); };
    ($holes:ident $list:ident # $name:ident $after:tt $next:tt) => {
        let ($name, is_list) = {
            #[allow(unused_imports)]
            use $crate::quote::macros::{Iterated as _, Listed as _, Single as _};
            $name.gathered()
        };
        let $list = $list | is_list;
        $holes.put_in_turns(::core::stringify!($name), &*$name);
    };
    ($holes:ident $list:tt $before:tt $here:tt $after:tt $next:tt) => {};
}

#[doc(hidden)]
#[macro_export]
macro_rules! __repetition {
    ($holes:ident $inside:tt) => {
        let list = $crate::quote::macros::ThisRepetitionNamesNoList;
        $crate::__each_hole! { $holes list $inside }
        let _: $crate::quote::macros::NamesList = list;
    };
}
