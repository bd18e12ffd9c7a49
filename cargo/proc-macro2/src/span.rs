//! Where tokens stand.
use crate::map::{self, sure};
use crate::{compiler, Span};
use proved_tokens::pm_span::Span as ProvedSpan;
use proved_tokens::pm_token::parts::show_span;
use std::fmt::{self, Debug};

#[derive(Clone, Copy)]
pub(crate) enum Repr {
    Compiler(proc_macro::Span),
    Own(Kept),
}

/// A place as it is kept. Without span locations nobody can ask for it, and then it takes no memory: a span takes 4
/// bytes in place of 12.
#[derive(Clone, Copy)]
pub(crate) struct Kept {
    #[cfg(span_locations)]
    place: ProvedSpan,
}

impl Kept {
    #[inline]
    fn new(_place: ProvedSpan) -> Kept {
        Kept {
            #[cfg(span_locations)]
            place: _place,
        }
    }

    /// The place, or none where it wasn't kept.
    #[inline]
    pub(crate) fn place(self) -> ProvedSpan {
        #[cfg(span_locations)]
        return self.place;
        #[cfg(not(span_locations))]
        ProvedSpan::call_site()
    }
}

impl Span {
    pub(crate) fn compiler(span: proc_macro::Span) -> Span {
        Span { repr: Repr::Compiler(span) }
    }

    pub(crate) fn own(place: ProvedSpan) -> Span {
        Span { repr: Repr::Own(Kept::new(place)) }
    }

    fn site(compiler: impl FnOnce() -> proc_macro::Span) -> Span {
        if compiler::inside() { Span::compiler(compiler()) } else { Span::own(ProvedSpan::call_site()) }
    }

    /// The span of the macro's call. Names with it are resolved there. Outside of macros it is no place.
    pub fn call_site() -> Span {
        Span::site(proc_macro::Span::call_site)
    }

    /// The span of the macro's call. Local names, labels and `$crate` are resolved where the macro is defined, and
    /// all others at the call. Outside of macros it is no place.
    pub fn mixed_site() -> Span {
        Span::site(proc_macro::Span::mixed_site)
    }

    /// The span of names that are resolved where the macro is defined. Outside of macros it is no place.
    ///
    /// It is exempt from semantic versioning.
    #[cfg(procmacro2_semver_exempt)]
    pub fn def_site() -> Span {
        Span::own(ProvedSpan::def_site())
    }

    /// A span at this place, with which names are resolved as with the other one.
    pub fn resolved_at(&self, other: Span) -> Span {
        match (self.repr, other.repr) {
            (Repr::Compiler(place), Repr::Compiler(names)) => Span::compiler(place.resolved_at(names)),
            (Repr::Own(place), Repr::Own(names)) => Span::own(place.place().resolved_at(names.place())),
            _ => compiler::mixed(),
        }
    }

    /// A span at the place of the other one, with which names are resolved as with this one.
    pub fn located_at(&self, other: Span) -> Span {
        other.resolved_at(*self)
    }

    /// The compiler's span.
    ///
    /// # Panics
    ///
    /// Where this span was made outside of a macro.
    #[cfg(all(feature = "proc-macro", not(procmacro2_semver_exempt)))]
    pub fn unwrap(self) -> proc_macro::Span {
        match self.repr {
            Repr::Compiler(span) => span,
            Repr::Own(_) => panic!("proc_macro::Span is only available in procedural macros"),
        }
    }

    #[doc(hidden)]
    #[cfg(all(feature = "proc-macro", not(procmacro2_semver_exempt)))]
    pub fn unstable(self) -> proc_macro::Span {
        self.unwrap()
    }

    /// Asks the compiler of its span, or the thread's map of one outside of macros.
    #[cfg(span_locations)]
    fn ask<T>(&self, compiler: fn(proc_macro::Span) -> T, own: fn(ProvedSpan, &mut map::SourceMap) -> T) -> T {
        match self.repr {
            Repr::Compiler(span) => compiler(span),
            Repr::Own(kept) => map::ask(kept.place(), |map| own(kept.place(), map)),
        }
    }

    /// The bytes of its file that the span takes. Inside a macro, where a stable compiler doesn't tell, it is 0..0.
    ///
    /// # Panics
    ///
    /// Where the thread has no file with the span, as after `extra::invalidate_current_thread_spans`; so do `start`,
    /// `end`, `file`, `join` and `source_text`.
    #[cfg(span_locations)]
    pub fn byte_range(&self) -> std::ops::Range<usize> {
        self.ask(|_| 0..0, |place, map| place.byte_range(map))
    }

    /// The line and column where the span begins.
    ///
    /// ```
    /// use proc_macro2::TokenStream;
    ///
    /// let stream: TokenStream = "a\n  é.b".parse()?;
    /// let last = stream.into_iter().last().expect("it has four trees").span();
    /// assert_eq!((last.start().line, last.start().column), (2, 4));
    /// assert_eq!((last.end().line, last.end().column), (2, 5));
    /// assert_eq!(last.byte_range(), 7..8);
    /// assert_eq!(last.source_text().as_deref(), Some("b"));
    /// # Ok::<(), proc_macro2::LexError>(())
    /// ```
    #[cfg(span_locations)]
    pub fn start(&self) -> crate::LineColumn {
        self.ask(|span| compiler::line_column(span.start()), |place, map| place.start(map))
    }

    /// The line and column where the span ends.
    #[cfg(span_locations)]
    pub fn end(&self) -> crate::LineColumn {
        self.ask(|span| compiler::line_column(span.end()), |place, map| place.end(map))
    }

    /// The name of the file that the span is in, to be shown: `<parsed string 2>` for the second text that the thread
    /// read, and `<unspecified>` for no place.
    #[cfg(span_locations)]
    pub fn file(&self) -> String {
        self.ask(|span| span.file(), |place, map| sure(place.file(map)))
    }

    /// The path of the file on disk that the span is in. Outside of macros there is none.
    #[cfg(span_locations)]
    pub fn local_file(&self) -> Option<std::path::PathBuf> {
        match self.repr {
            Repr::Compiler(span) => span.local_file(),
            Repr::Own(_) => None,
        }
    }

    /// The span from the first of the two beginnings to the last of the two ends; `None` where they are in two files,
    /// and inside a macro, where a stable compiler doesn't tell.
    ///
    /// ```
    /// use proc_macro2::TokenStream;
    ///
    /// let stream: TokenStream = "a + b; c".parse()?;
    /// let spans: Vec<_> = stream.into_iter().map(|tree| tree.span()).collect();
    /// let sum = spans[0].join(spans[2]).expect("one text has both");
    /// if let Some(text) = sum.source_text() {
    ///     // with span locations
    ///     assert_eq!(text, "a + b");
    /// }
    /// # Ok::<(), proc_macro2::LexError>(())
    /// ```
    pub fn join(&self, other: Span) -> Option<Span> {
        match (self.repr, other.repr) {
            (Repr::Own(place), Repr::Own(other)) if cfg!(span_locations) => {
                let (place, other) = (place.place(), other.place());
                // Each panics where the map lacks it.
                map::ask(other, |_| ());
                map::ask(place, |map| place.join(other, map)).map(Span::own)
            }
            (Repr::Own(_), Repr::Own(_)) => Some(other),
            (Repr::Compiler(_), Repr::Compiler(_)) => None,
            _ => compiler::mixed(),
        }
    }

    /// Whether both have the same positions.
    ///
    /// It is exempt from semantic versioning.
    #[cfg(procmacro2_semver_exempt)]
    #[allow(clippy::should_implement_trait)]
    pub fn eq(&self, other: &Span) -> bool {
        matches!((self.repr, other.repr), (Repr::Own(place), Repr::Own(other)) if place.place().eq(&other.place()))
    }

    /// The source text of the span, with its white space and comments. There is none without span locations, nor for
    /// a span of no place.
    pub fn source_text(&self) -> Option<String> {
        match self.repr {
            Repr::Compiler(span) => span.source_text(),
            Repr::Own(own) if cfg!(span_locations) => map::ask(own.place(), |map| sure(own.place().source_text(map))),
            Repr::Own(_) => None,
        }
    }
}

/// The compiler's span, inside a macro.
#[cfg(all(feature = "proc-macro", not(procmacro2_semver_exempt)))]
impl From<proc_macro::Span> for Span {
    fn from(span: proc_macro::Span) -> Span {
        Span::compiler(span)
    }
}

impl Debug for Span {
    fn fmt(&self, f: &mut fmt::Formatter) -> fmt::Result {
        match self.repr {
            Repr::Compiler(span) => span.fmt(f),
            Repr::Own(kept) if cfg!(span_locations) => kept.place().fmt(f),
            Repr::Own(_) => f.write_str("Span"),
        }
    }
}

impl Span {
    /// Shows it as a field, where it says anything.
    pub(crate) fn show(self, debug: &mut fmt::DebugStruct) {
        match self.repr {
            Repr::Own(kept) if cfg!(span_locations) => show_span(debug, kept.place()),
            Repr::Own(_) => {}
            Repr::Compiler(span) => {
                debug.field("span", &span);
            }
        }
    }
}
