//! Tokens of two kinds: the compiler's, inside macros, and those of the proved functions.
use crate::compiler::{self, Copied};

/// A token, a stream or an error of the compiler's or of the proved functions.
pub(crate) enum Repr<C, O> {
    Compiler(C),
    Own(O),
}

impl<C, O> Repr<C, O> {
    pub(crate) fn into_compiler(self) -> C {
        match self {
            Repr::Compiler(token) => token,
            Repr::Own(_) => compiler::mixed(),
        }
    }

    #[inline(always)]
    pub(crate) fn into_own(self) -> O {
        match self {
            Repr::Own(token) => token,
            Repr::Compiler(_) => compiler::mixed(),
        }
    }
}

impl<C: Copied, O: Clone> Clone for Repr<C, O> {
    #[inline(always)]
    fn clone(&self) -> Repr<C, O> {
        match self {
            Repr::Own(token) => Repr::Own(token.clone()),
            Repr::Compiler(token) => Repr::Compiler(token.copied()),
        }
    }
}

/// What the four kinds of trees have in common.
macro_rules! token {
    ($name:ident, $own:ty) => {
        impl $name {
            pub(crate) fn compiler(token: proc_macro::$name) -> $name {
                $name { repr: Repr::Compiler(token) }
            }

            #[inline(always)]
            pub(crate) fn own(token: $own) -> $name {
                $name { repr: Repr::Own(token) }
            }

            /// Where it stands: of a group delimiters and all.
            pub fn span(&self) -> Span {
                match &self.repr {
                    Repr::Compiler(token) => Span::compiler(token.span()),
                    Repr::Own(token) => Span::own(token.span()),
                }
            }

            /// Sets where it stands, and inside a macro how it is resolved. The trees in a group keep their spans.
            pub fn set_span(&mut self, span: Span) {
                match (&mut self.repr, span.repr) {
                    (Repr::Compiler(token), SpanRepr::Compiler(span)) => token.set_span(span),
                    (Repr::Own(token), SpanRepr::Own(kept)) => token.set_span(kept.place()),
                    _ => compiler::mixed(),
                }
            }
        }
    };
}
pub(crate) use token;

/// Prints or shows the compiler's token as the compiler does, and the other as it is told here.
macro_rules! show {
    ($(#[$doc:meta])* $how:ident for $name:ident: $own:pat, $f:ident => $show:expr) => {
        $(#[$doc])*
        impl $how for $name {
            fn fmt(&self, $f: &mut fmt::Formatter) -> fmt::Result {
                match &self.repr {
                    Repr::Compiler(token) => $how::fmt(token, $f),
                    Repr::Own($own) => $show,
                }
            }
        }
    };
}
pub(crate) use show;
