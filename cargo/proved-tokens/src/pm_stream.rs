// Made from crates/pm_stream/src/lib.rt by dev/erase: change that file, not this one.
//! Streams of token trees: read from text, and printed.
//!
//! A rule is named by its label in backquotes, such as `parses-to`. `docs/GRAMMAR.md` has all of them, each
//! with its definition.

mod build;
mod debug;
mod display;
mod doc;
pub mod extra;
#[cfg(feature = "whole")]
pub mod laws;
mod parse;
pub mod parts;
#[cfg(feature = "whole")]
pub mod placing;
pub mod reading;
#[cfg(feature = "whole")]
pub mod reprinting;
#[cfg(feature = "whole")]
mod same;
mod steps;
mod stream;
pub mod token_stream;
#[cfg(feature = "whole")]
mod walk;
#[cfg(feature = "whole")]
mod well_spaced;

pub use steps::{Step, Steps};
pub use stream::{Group, TokenStream, TokenTree};
#[cfg(feature = "whole")]
pub use walk::Walk;
#[cfg(feature = "whole")]
pub use well_spaced::may_be_joint;
