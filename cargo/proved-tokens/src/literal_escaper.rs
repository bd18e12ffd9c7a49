// Made from crates/literal_escaper/src/lib.rt by dev/erase: change that file, not this one.
//! Reads the contents of literals, item by item: their characters or bytes, and their errors.
//!
//! The rules are in docs/GRAMMAR.md under "Escaper items"; their exact definitions are in `specs/`. No call allocates
//! memory, and each call returns for every text.
//!
//! A rule is named by its label in backquotes, such as `item-hex`. `docs/GRAMMAR.md` lists all rules with their
//! definitions.

#[cfg(feature = "whole")]
mod check;
#[cfg(feature = "whole")]
mod check_raw;
#[cfg(feature = "whole")]
mod classes;
#[cfg(feature = "whole")]
mod content_cursor;
#[cfg(feature = "whole")]
mod cooked;
mod errors;
#[cfg(feature = "whole")]
mod escape;
#[cfg(feature = "whole")]
mod front;
#[cfg(feature = "whole")]
mod kind;
#[cfg(feature = "whole")]
pub mod laws;
#[cfg(feature = "whole")]
mod mixed_unit;
#[cfg(feature = "whole")]
mod mode;
#[cfg(feature = "whole")]
mod num;
#[cfg(feature = "whole")]
mod raw;
#[cfg(feature = "whole")]
mod single;
#[cfg(feature = "whole")]
mod unescape;

#[cfg(feature = "whole")]
pub use crate::literal_escaper::check::{CheckForErrors, check_for_errors};
#[cfg(feature = "whole")]
pub use crate::literal_escaper::check_raw::{
    CheckRawByteStr, CheckRawCStr, CheckRawStr, check_raw_byte_str, check_raw_c_str, check_raw_str,
};
pub use crate::literal_escaper::errors::EscapeError;
#[cfg(feature = "whole")]
pub use crate::literal_escaper::mixed_unit::MixedUnit;
#[cfg(feature = "whole")]
pub use crate::literal_escaper::mode::Mode;
#[cfg(feature = "whole")]
pub use crate::literal_escaper::num::{NonZeroChar, NonZeroU8};
#[cfg(feature = "whole")]
pub use crate::literal_escaper::unescape::{
    UnescapeByteStr, UnescapeCStr, UnescapeStr, unescape_byte, unescape_byte_str, unescape_c_str,
    unescape_char, unescape_str,
};
