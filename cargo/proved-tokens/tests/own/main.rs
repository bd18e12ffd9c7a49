//! The library's own tests, erased as the library is.
#![allow(clippy::all, dead_code, unreachable_code, unused_imports, unused_variables)]

#[cfg(feature = "declarations")]
mod declarations_tests;
#[cfg(feature = "item_headers")]
mod item_headers_tests;
mod lexical_tests;
mod pm_stream_tests;
mod pm_token_tests;
#[cfg(feature = "quoting")]
mod quoting_tests;
mod shim;
mod test_helpers;
#[cfg(all(feature = "token_buffer", feature = "explain"))]
mod token_buffer_tests;
