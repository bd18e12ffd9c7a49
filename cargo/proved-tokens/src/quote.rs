//! Builds streams from templates with holes. It needs the feature `quote`.
//!
//! [`quote!`](crate::quote!) makes a stream as the macro of the crate `quote` does: `#name` is replaced by the variable
//! of that name, and `#( .. ),*` repeats its trees. [`quote_spanned!`](crate::quote_spanned!) also gives the tokens a
//! span, and [`format_ident!`](crate::format_ident!) makes an identifier. A [`Template`] is parsed from a text when the
//! program runs.
//!
//! ```
//! use proved_tokens::quote::{Holes, Template};
//! use proved_tokens::{format_ident, quote};
//!
//! let name = format_ident!("{}_of", "size");
//! let fields = [format_ident!("x"), format_ident!("y")];
//! let made = quote! { fn #name(&self) -> usize { 0 #( + self.#fields.size() )* } };
//! assert_eq!(made.to_string(), "fn size_of (& self) -> usize { 0 + self . x . size () + self . y . size () }");
//!
//! let template = Template::parse("fn #name() -> u8 { #value }")?;
//! let made = template.fill(&Holes::new().with("name", &name).with("value", &1u8))?;
//! assert_eq!(made.to_string(), "fn size_of () -> u8 { 1u8 }");
//! # Ok::<(), Box<dyn std::error::Error>>(())
//! ```
//!
//! A [`Quote`] builds a stream from several parts. The stream of [`Quote::finish`] reads back from its printed text as
//! the same stream, up to spans. [`Quote::into_stream`] returns exactly what was put in, as a macro needs it.
//!
//! ```
//! use proved_tokens::quote::{Hole, Quote};
//! use proved_tokens::{SourceMap, TokenStream};
//!
//! let mut map = SourceMap::new();
//! let name: TokenStream = "size".parse()?;
//! let mut quote = Quote::new();
//! quote.parse("fn #name() {}", &mut map, &[Hole::one("name", &name)])?;
//! assert_eq!(quote.finish()?.to_string(), "fn size () { }");
//! # Ok::<(), Box<dyn std::error::Error>>(())
//! ```
mod fault;
mod holes;
mod ident;
#[doc(hidden)]
pub mod macros;
mod template;
mod to_tokens;

#[doc(inline)]
pub use crate::quoting::{Hole, Number, Quote, Value, Values};
pub use fault::TemplateFault;
pub use holes::Holes;
pub use ident::IdentFragment;
#[doc(hidden)]
pub use ident::{named, Part};
#[doc(hidden)]
pub use template::Piece;
pub use template::Template;
pub use to_tokens::{InTurns, ToTokens};
