//! Walks over the trees of a stream, at all depths, in reading order.
//!
//! `for tree in &stream` gives the trees at the top alone. [`TokenStream::walk`](crate::TokenStream::walk) gives the
//! trees inside of groups too, each group before what is in it. [`TokenStream::steps`](crate::TokenStream::steps) says
//! also where each group ends. Both are iterators, and both can pass over a group.
//!
//! ```
//! use proved_tokens::walk::Step;
//! use proved_tokens::{SourceMap, TokenStream, TokenTree};
//!
//! let mut map = SourceMap::new();
//! let stream = TokenStream::from_str("f(a,\n  g[b])", &mut map)?;
//! let mut names = Vec::new();
//! for tree in stream.walk() {
//!     if let TokenTree::Ident(name) = tree {
//!         names.push((name.to_string(), name.span().start(&map).line));
//!     }
//! }
//! assert_eq!(names[2], ("g".to_string(), 2)); // after `f` and `a`
//! assert_eq!(stream.steps().filter(|step| matches!(step, Step::Leave(..))).count(), 2);
//!
//! // A stream of chosen trees, and more after them.
//! let mut marks: TokenStream = stream.walk().filter(|tree| matches!(tree, TokenTree::Punct(_))).cloned().collect();
//! marks.extend(stream);
//! assert_eq!(marks.to_string(), ", f (a , g [b])");
//! # Ok::<(), Box<dyn std::error::Error>>(())
//! ```
#[doc(inline)]
pub use crate::proc_macro2::token_stream::{IntoIter, Step, Steps, Walk};
