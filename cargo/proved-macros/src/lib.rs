//! Token streams of any `proc-macro2` as those of [`proved_tokens`], and back, each token with its caller's span.
//!
//! What the public crate lacks can be asked of the proved stream, whichever `proc-macro2` a project has: no dependency
//! is replaced. It is so inside macros too, where the tokens are the compiler's.
//!
//! ```
//! use proved_macros::{from_proved, to_proved, Spans};
//!
//! let input: proc_macro2::TokenStream = "fn f(x: u8) -> u8 { x + 1 }".parse()?;
//! let mut spans = Spans::new();
//! let stream = to_proved(&input, &mut spans)?;
//! assert!(stream.is_well_spaced());
//! assert_eq!(from_proved(&stream, &spans)?.to_string(), input.to_string());
//! # Ok::<(), Box<dyn std::error::Error>>(())
//! ```
//!
//! A token that stays as it was comes back as the caller's own, and so does a group in which all stays. Any other is
//! made by the caller's crate, with the span that it bears. Both ways take time in proportion to the number of trees
//! and the length of their texts, and little stack, however deep groups nest.
#![forbid(unsafe_code)]
#![warn(missing_docs)]

mod back;
#[cfg(feature = "declarations")]
mod expand;
mod literals;
mod over;
#[cfg(feature = "pretty_printer")]
mod pretty;
mod spans;

pub use back::from_proved;
#[cfg(feature = "declarations")]
pub use expand::{expand, expand_attribute};
pub use over::to_proved;
#[cfg(feature = "pretty_printer")]
pub use pretty::{pretty, PrettyError};
pub use proved_tokens;
pub use spans::{NoToken, Spans};

/// The examples of the page that describes this package.
#[cfg(all(doctest, feature = "pretty_printer"))]
#[doc = include_str!("../README.md")]
struct Readme;

/// The examples of the repository's guide, which may use all features. The page is not in the package.
#[cfg(all(doctest, feature = "quote", feature = "items", feature = "print", feature = "check", feature = "cursor"))]
#[doc = include_str!("../../../docs/GUIDE.md")]
struct Guide;

/// The examples on the pages of the repository's crates, likewise.
#[cfg(all(doctest, feature = "quote", feature = "items", feature = "print", feature = "check", feature = "cursor"))]
mod pages {
    macro_rules! pages {
        ($($page:literal $name:ident)*) => {
            $(
                #[doc = include_str!(concat!("../../../crates/", $page, "/README.md"))]
                struct $name;
            )*
        };
    }

    pages! {
        "lexical" Lexical
        "literal_escaper" LiteralEscaper
        "pm_span" PmSpan
        "pm_token" PmToken
        "pm_stream" PmStream
        "token_buffer" TokenBuffer
        "proc_macro2" ProcMacro2
        "declarations" Declarations
        "explain" Explain
        "layout" Layout
        "relayout" Relayout
        "quoting" Quoting
        "item_headers" ItemHeaders
        "pretty_printer" PrettyPrinter
        "pretty" Pretty
    }
}
