// Made from crates/pm_token/src/lib.rt by dev/erase: change that file, not this one.
//! Tokens: identifiers, punctuation marks and literals, and the errors of texts that can't be parsed.
//!
//! A word in backquotes that names no item, such as `literal-value`, is the label of a rule. `docs/GRAMMAR.md`
//! defines all rules.

pub mod delimiters;
pub mod errors;
mod escapes;
pub mod identifiers;
pub mod laws;
pub mod literals;
pub mod marks;
pub mod parts;
mod symbols;

pub use delimiters::Delimiter;
pub use errors::{LexError, ParseError};
pub use identifiers::{Ident, IdentError};
pub use literals::{ConversionErrorKind, Literal};
pub use marks::{Punct, Spacing};
