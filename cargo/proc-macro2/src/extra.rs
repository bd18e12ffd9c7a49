//! What goes beyond the compiler's own library of tokens.
use crate::Span;
use std::fmt::{self, Debug};

/// Forgets the texts that the thread has read, so that their memory is free again.
///
/// Spans of them are of no use from then on: to ask one where it stands panics, or answers of a later text.
///
/// # Panics
///
/// Inside a macro, where the spans are the compiler's.
///
/// ```
/// use proc_macro2::{extra, TokenStream};
///
/// for text in ["a", "b"] {
///     let stream: TokenStream = text.parse()?;
///     let first = stream.into_iter().next().expect("it has one tree");
///     assert_eq!(first.span().byte_range(), 0..1);
///     extra::invalidate_current_thread_spans();
/// }
/// # Ok::<(), proc_macro2::LexError>(())
/// ```
#[cfg(span_locations)]
pub fn invalidate_current_thread_spans() {
    assert!(
        !crate::compiler::inside(),
        "proc_macro2::extra::invalidate_current_thread_spans is not available in procedural macros"
    );
    crate::map::with(|map| map.invalidate());
}

/// The span of a group, with those of its two delimiters.
///
/// ```
/// use proc_macro2::{TokenStream, TokenTree};
///
/// let stream: TokenStream = "(a)".parse()?;
/// let Some(TokenTree::Group(group)) = stream.into_iter().next() else { panic!("it is a group") };
/// let spans = group.delim_span();
/// assert_eq!(format!("{:?}", spans.open()), format!("{:?}", group.span_open()));
/// # Ok::<(), proc_macro2::LexError>(())
/// ```
#[derive(Clone, Copy)]
pub struct DelimSpan {
    pub(crate) join: Span,
    pub(crate) open: Span,
    pub(crate) close: Span,
}

impl DelimSpan {
    /// The span of the whole group.
    pub fn join(&self) -> Span {
        self.join
    }

    /// The span of its opening delimiter.
    pub fn open(&self) -> Span {
        self.open
    }

    /// The span of its closing delimiter.
    pub fn close(&self) -> Span {
        self.close
    }
}

impl Debug for DelimSpan {
    fn fmt(&self, f: &mut fmt::Formatter) -> fmt::Result {
        Debug::fmt(&self.join, f)
    }
}
