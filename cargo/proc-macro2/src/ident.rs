//! Identifiers.
use crate::compiler::inside_alone;
use crate::repr::{token, Repr};
use crate::span::Repr as SpanRepr;
use crate::{compiler, print, Ident, Span};
use proved_tokens::pm_span::Span as ProvedSpan;
use proved_tokens::pm_token::{Ident as Own, IdentError};
use std::cmp::Ordering;
use std::fmt::{self, Debug, Display};
use std::hash::{Hash, Hasher};

token!(Ident, Own);

impl Ident {
    /// The plain identifier of this name.
    ///
    /// # Panics
    ///
    /// Where the name is empty, a number, or no name of the language.
    ///
    /// ```
    /// # use proc_macro2::{Ident, Span};
    /// let name = Ident::new("größe", Span::call_site());
    /// assert_eq!(name.to_string(), "größe");
    /// assert!(std::panic::catch_unwind(|| Ident::new("2", Span::call_site())).is_err());
    /// ```
    #[track_caller]
    #[inline]
    pub fn new(string: &str, span: Span) -> Ident {
        match span.repr {
            SpanRepr::Own(kept) => Ident::own(made(Own::new(string, kept.place()), string)),
            SpanRepr::Compiler(span) => inside(string, span),
        }
    }

    /// The raw identifier of this name, which is given without `r#`.
    ///
    /// # Panics
    ///
    /// As [`new`](Ident::new), and where the name is `_`, `super`, `self`, `Self` or `crate`.
    #[track_caller]
    #[inline]
    pub fn new_raw(string: &str, span: Span) -> Ident {
        match span.repr {
            SpanRepr::Own(kept) => Ident::own(made(Own::new_raw(string, kept.place()), string)),
            SpanRepr::Compiler(span) => {
                made(Own::new_raw(string, ProvedSpan::call_site()), string);
                Ident::compiler(proc_macro::Ident::new_raw(string, span))
            }
        }
    }

    /// Shows it as a tree of a stream is shown.
    pub(crate) fn show_tree(&self, f: &mut fmt::Formatter) -> fmt::Result {
        match &self.repr {
            Repr::Compiler(ident) => Debug::fmt(ident, f),
            Repr::Own(ident) => print::show_ident(ident, f),
        }
    }
}

/// The plain identifier of the compiler's.
#[cold]
#[track_caller]
fn inside(name: &str, span: proc_macro::Span) -> Ident {
    made(Own::new(name, ProvedSpan::call_site()), name);
    Ident::compiler(proc_macro::Ident::new(name, span))
}

/// The identifier of a name, which panics where the name has a fault.
#[track_caller]
#[inline(always)]
fn made(ident: Result<Own, IdentError>, name: &str) -> Own {
    match ident {
        Ok(ident) => ident,
        Err(error) => refused(error, name),
    }
}

#[cold]
#[track_caller]
fn refused(error: IdentError, name: &str) -> ! {
    match error {
        IdentError::Empty => panic!("Ident is not allowed to be empty; use Option<Ident>"),
        IdentError::Number => panic!("Ident cannot be a number; use Literal instead"),
        IdentError::Invalid => panic!("{name:?} is not a valid Ident"),
        IdentError::Reserved => panic!("`r#{name}` cannot be a raw identifier"),
        IdentError::Memory(never) => match never {},
        _ => unreachable!("each case is above"),
    }
}

impl PartialEq for Ident {
    #[inline]
    fn eq(&self, other: &Ident) -> bool {
        match (&self.repr, &other.repr) {
            (Repr::Own(ident), Repr::Own(other)) => ident == other,
            _ => inside_alone(|| self.cmp(other) == Ordering::Equal),
        }
    }
}

/// Whether the text is how the identifier is written.
impl<T: ?Sized + AsRef<str>> PartialEq<T> for Ident {
    #[inline]
    fn eq(&self, other: &T) -> bool {
        match &self.repr {
            Repr::Own(ident) => ident.eq_str(other.as_ref()),
            Repr::Compiler(ident) => inside_alone(|| ident.to_string() == other.as_ref()),
        }
    }
}

impl Eq for Ident {}

impl PartialOrd for Ident {
    fn partial_cmp(&self, other: &Ident) -> Option<Ordering> {
        Some(self.cmp(other))
    }
}

impl Ord for Ident {
    fn cmp(&self, other: &Ident) -> Ordering {
        match (&self.repr, &other.repr) {
            (Repr::Own(ident), Repr::Own(other)) => ident.cmp(other),
            _ => self.to_string().cmp(&other.to_string()),
        }
    }
}

/// Feeds the hasher the text of the identifier.
impl Hash for Ident {
    fn hash<H: Hasher>(&self, hasher: &mut H) {
        match &self.repr {
            Repr::Own(ident) => ident.hash(hasher),
            Repr::Compiler(ident) => ident.to_string().hash(hasher),
        }
    }
}

impl Display for Ident {
    #[inline]
    fn fmt(&self, f: &mut fmt::Formatter) -> fmt::Result {
        match &self.repr {
            Repr::Own(ident) => Display::fmt(ident, f),
            Repr::Compiler(ident) => inside_alone(|| Display::fmt(ident, f)),
        }
    }
}

impl Debug for Ident {
    fn fmt(&self, f: &mut fmt::Formatter) -> fmt::Result {
        match &self.repr {
            Repr::Own(_) if !cfg!(span_locations) => f.debug_tuple("Ident").field(&format_args!("{self}")).finish(),
            _ => self.show_tree(f),
        }
    }
}
