//! Why a text does not parse, and what would mend it, by the feature `check`.
//!
//! [`explain`] gives nothing if the text parses. Else it gives a [`Reason`], the stretch of the text where it is, and
//! the delimiter that was open there. [`advice`] finds a change that helps, if there is one.
//!
//! ```
//! use proved_tokens::check::{explain, Reason};
//!
//! assert!(explain("f(x)")?.is_none());
//! let explained = explain("f(\"x)")?.ok_or("it does not parse")?;
//! assert!(matches!(explained.reason, Reason::UnclosedString { .. }));
//! assert_eq!(explained.at.start, 2);
//! # Ok::<(), Box<dyn std::error::Error>>(())
//! ```
#[doc(inline)]
pub use crate::explain::{advice, explain, Explained, Hint, Opener, Reason, Stretch};
