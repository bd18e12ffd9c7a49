//! Inside a macro: the compiler's own tokens.
#[cfg(span_locations)]
use crate::LineColumn;
use crate::{LexError, TokenStream, TokenTree};
use proved_tokens::pm_span::Span as ProvedSpan;
use std::fmt::{self, Debug};
use std::panic;
use std::str::FromStr;
use std::sync::atomic::{AtomicU8, Ordering};

const UNKNOWN: u8 = 0;
const OUTSIDE: u8 = 1;
const INSIDE: u8 = 2;

/// Whether the process runs macros for a compiler, once that was asked.
static WHERE: AtomicU8 = AtomicU8::new(UNKNOWN);

/// Whether tokens are to be the compiler's.
#[inline(always)]
pub(crate) fn inside() -> bool {
    // Who asks for what a stable compiler doesn't offer gets the wrapper's own tokens.
    if cfg!(procmacro2_semver_exempt) || !cfg!(feature = "proc-macro") {
        return false;
    }
    // One comparison and one call: it is compiled wherever tokens are made.
    WHERE.load(Ordering::Relaxed) != OUTSIDE && found_inside()
}

#[cold]
fn found_inside() -> bool {
    WHERE.load(Ordering::Relaxed) == INSIDE || look()
}

#[cold]
fn look() -> bool {
    let inside = proc_macro::is_available();
    WHERE.store(if inside { INSIDE } else { OUTSIDE }, Ordering::Relaxed);
    inside
}

/// Does what is done inside macros alone, out of the way of all other code.
#[cold]
#[inline(never)]
pub(crate) fn inside_alone<T>(act: impl FnOnce() -> T) -> T {
    act()
}

/// A copy of a token or of a stream inside a macro.
// Not `Clone`, so that its code is compiled here once, and not wherever a token is copied.
pub(crate) trait Copied: Sized {
    fn copied(&self) -> Self;
}

macro_rules! copied {
    ($($type:ty)*) => {$(
        impl Copied for $type {
            #[cold]
            fn copied(&self) -> $type {
                self.clone()
            }
        }
    )*};
}

copied!(proc_macro::Group proc_macro::Ident proc_macro::Punct proc_macro::Literal);
copied!(proc_macro::token_stream::IntoIter Stream);

/// Has all new tokens be the wrapper's own.
pub fn stay_outside() {
    WHERE.store(OUTSIDE, Ordering::Relaxed);
}

/// Looks again whose new tokens are to be.
pub fn look_again() {
    look();
}

/// Tokens of both kinds met.
#[cold]
#[track_caller]
pub(crate) fn mixed() -> ! {
    panic!("compiler/fallback mismatch: tokens that were made inside a macro and outside of it met")
}

/// A stream of the compiler, and trees that are to go after it. They go there together, since each call costs the
/// same whatever it takes along.
#[derive(Clone)]
pub(crate) struct Stream {
    stream: proc_macro::TokenStream,
    after: Vec<proc_macro::TokenTree>,
}

impl Stream {
    pub(crate) fn new(stream: proc_macro::TokenStream) -> Stream {
        Stream { stream, after: Vec::new() }
    }

    pub(crate) fn is_empty(&self) -> bool {
        self.after.is_empty() && self.stream.is_empty()
    }

    pub(crate) fn push(&mut self, tree: TokenTree) {
        self.after.push(tree_of(tree));
    }

    #[cold]
    pub(crate) fn append(&mut self, streams: &mut dyn Iterator<Item = TokenStream>) {
        self.settle();
        self.stream.extend(streams.map(|more| more.repr.into_compiler().finish()));
    }

    fn settle(&mut self) {
        if !self.after.is_empty() {
            self.stream.extend(self.after.drain(..));
        }
    }

    pub(crate) fn finish(mut self) -> proc_macro::TokenStream {
        self.settle();
        self.stream
    }
}

impl Debug for Stream {
    fn fmt(&self, f: &mut fmt::Formatter) -> fmt::Result {
        self.clone().finish().fmt(f)
    }
}

/// The compiler's tree.
pub(crate) fn tree_of(tree: TokenTree) -> proc_macro::TokenTree {
    match tree {
        TokenTree::Group(group) => proc_macro::TokenTree::Group(group.repr.into_compiler()),
        TokenTree::Ident(ident) => proc_macro::TokenTree::Ident(ident.repr.into_compiler()),
        TokenTree::Punct(punct) => proc_macro::TokenTree::Punct(punct.repr.into_compiler()),
        TokenTree::Literal(literal) => proc_macro::TokenTree::Literal(literal.repr.into_compiler()),
    }
}

/// What the compiler reads of a text.
///
/// The proved functions look first whether it is `readable`, since some faults end the compilation although the caller
/// would have gone on.
pub(crate) fn read<T: FromStr<Err = proc_macro::LexError>>(text: &str, readable: bool) -> Result<T, LexError> {
    let read = if readable { panic::catch_unwind(|| text.parse::<T>()).ok() } else { None };
    let fault = || Err(LexError::own(ProvedSpan::call_site()));
    read.map_or_else(fault, |read| read.map_err(LexError::compiler))
}

/// A place of the compiler, whose columns count from 1.
#[cfg(span_locations)]
pub(crate) fn line_column(span: proc_macro::Span) -> LineColumn {
    LineColumn {
        line: span.line(),
        column: span.column().saturating_sub(1),
    }
}
