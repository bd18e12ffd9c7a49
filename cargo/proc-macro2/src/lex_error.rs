//! Why a text is refused.
use crate::repr::{show, Repr};
use crate::{LexError, Span};
use proved_tokens::pm_span::Span as ProvedSpan;
use std::error::Error;
use std::fmt::{self, Debug, Display};

impl LexError {
    pub(crate) fn compiler(error: proc_macro::LexError) -> LexError {
        LexError { repr: Repr::Compiler(error) }
    }

    pub(crate) fn own(place: ProvedSpan) -> LexError {
        LexError { repr: Repr::Own(place) }
    }

    /// Where the fault stands: with span locations and outside of macros right before what can't be read, else
    /// no place.
    ///
    /// ```
    /// # use proc_macro2::TokenStream;
    /// let error = "f(x))".parse::<TokenStream>().unwrap_err();
    /// let shown = format!("{:?}", error.span()); // bytes(5..5) with span locations: before the second `)`
    /// # assert!(shown.starts_with("bytes(") || shown == "Span", "{shown}");
    /// ```
    pub fn span(&self) -> Span {
        match &self.repr {
            Repr::Compiler(_) => Span::call_site(),
            Repr::Own(place) => Span::own(*place),
        }
    }
}

show!(Debug for LexError: place, f => f.debug_struct("LexError").field("span", &Span::own(*place)).finish());

show!(Display for LexError: _, f => f.write_str("cannot parse string into token stream"));

impl Error for LexError {}
