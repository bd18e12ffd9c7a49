// Made from crates/quoting/src/errors.rt by dev/erase: change that file, not this one.
//! The errors of quotes and of templates.

use crate::proc_macro2::{ParseError, Span};
use crate::shim::alloc::AllocError;
use crate::shim::fmt;

/// The error of a stream that cannot be made well spaced, or out of memory. `Quote::finish` returns it.
///
/// It is the error of the first tree in reading order that has one. A group comes before its contents.
#[derive(Debug, PartialEq, Eq)]
#[non_exhaustive]
pub enum QuoteError {
    /// A group has no delimiters, so its printed text does not show it.
    NoneGroup,
    /// A `'` is not followed by anything that it belongs to. The next tree in its list is neither an identifier nor a
    /// literal that begins with `b"`, `c"`, `r"`, `br"` or `cr"`.
    LoneQuote,
    /// Memory ran out.
    Memory(AllocError),
}

impl fmt::Display for QuoteError {
    fn fmt<W: fmt::Write>(&self, f: &mut fmt::Formatter<W>) -> fmt::Result {
        match self {
            QuoteError::NoneGroup => f.write_str("a group has no delimiters"),
            QuoteError::LoneQuote => f.write_str("no name and no literal follows a `'`"),
            QuoteError::Memory(_) => f.write_str("no memory"),
        }
    }
}

crate::shim::display!(QuoteError);

impl From<AllocError> for QuoteError {
    fn from(error: AllocError) -> QuoteError {
        QuoteError::Memory(error)
    }
}

/// The error of `fill` and `parse`: a template's first error, the error of parsing its text, or out of memory.
///
/// The first error is the first in reading order, where a group comes before its contents. So `#( #missing )*` gives
/// `NoList` at the parentheses, and gives `NoHole` at `missing` only if it also names a list. At one pair of
/// parentheses `TooDeep` comes before `NoList`. In a repetition the errors `NoHole`, `UnequalLists` and `TooDeep` of
/// its trees come first, in reading order. Then come the errors of its first turn, of its second, and so on.
#[derive(Debug)]
#[non_exhaustive]
pub enum TemplateError {
    /// A name after a `#` is not the name of any hole. The span is that of the name.
    NoHole(Span),
    /// A list is named outside of repetitions. The span is that of the name.
    LoneList(Span),
    /// A repetition names no list at any depth. The span is that of its parentheses.
    NoList(Span),
    /// A list and the first list named in the repetition have different lengths. The span is that of the list's name.
    UnequalLists(Span),
    /// The value of a hole is a `Name` whose text is not an identifier, or is a raw one. The span is that of the hole's
    /// name.
    NotIdent(Span),
    /// The value of a hole is a float that is infinite or not a number. The span is that of the hole's name.
    NotFinite(Span),
    /// A group is nested inside 64 other groups. The span is that of the group.
    TooDeep(Span),
    /// The text of the template was not parsed. It has a syntax error, the map has no room for it, or memory ran out
    /// during parsing.
    Parse(ParseError),
    /// Memory ran out while the template was filled.
    Memory(AllocError),
}

impl TemplateError {
    /// Returns the span of the error in the template, or that of the text's syntax error ([`ParseError::span`]).
    ///
    /// Returns `None` if the map has no room or memory ran out.
    ///
    /// # Contract
    ///
    /// - `ensures`: <code>result ≡ [template_span] self.now</code>
    ///
    /// [template_span]: crate::contracts#quoting.Message.template_span
    pub fn span(&self) -> Option<Span>
    {
        match self {
            TemplateError::NoHole(span)
            | TemplateError::LoneList(span)
            | TemplateError::NoList(span)
            | TemplateError::UnequalLists(span)
            | TemplateError::NotIdent(span)
            | TemplateError::NotFinite(span)
            | TemplateError::TooDeep(span) => Some(*span),
            TemplateError::Parse(error) => error.span(),
            TemplateError::Memory(_) => None,
        }
    }
}

impl PartialEq for TemplateError {
    /// Returns whether both errors are of one kind, with the same span or both without one. Two `Parse` errors are
    /// equal exactly if their inner errors are.
    fn eq(&self, other: &TemplateError) -> bool {
        match (self, other) {
            (TemplateError::NoHole(span), TemplateError::NoHole(other))
            | (TemplateError::LoneList(span), TemplateError::LoneList(other))
            | (TemplateError::NoList(span), TemplateError::NoList(other))
            | (TemplateError::UnequalLists(span), TemplateError::UnequalLists(other))
            | (TemplateError::NotIdent(span), TemplateError::NotIdent(other))
            | (TemplateError::NotFinite(span), TemplateError::NotFinite(other))
            | (TemplateError::TooDeep(span), TemplateError::TooDeep(other)) => span.eq(other),
            (TemplateError::Parse(error), TemplateError::Parse(other)) => error == other,
            (TemplateError::Memory(_), TemplateError::Memory(_)) => true,
            _ => false,
        }
    }
}

impl fmt::Display for TemplateError {
    fn fmt<W: fmt::Write>(&self, f: &mut fmt::Formatter<W>) -> fmt::Result {
        match self {
            TemplateError::NoHole(_) => f.write_str("no hole of this name"),
            TemplateError::LoneList(_) => f.write_str("a list outside of a repetition"),
            TemplateError::NoList(_) => f.write_str("a repetition that names no list"),
            TemplateError::UnequalLists(_) => f.write_str("lists of different lengths"),
            TemplateError::NotIdent(_) => f.write_str("no name of an identifier"),
            TemplateError::NotFinite(_) => f.write_str("a float that is not finite"),
            TemplateError::TooDeep(_) => f.write_str("groups nested too deep"),
            TemplateError::Parse(error) => error.fmt(f),
            TemplateError::Memory(_) => f.write_str("no memory"),
        }
    }
}

crate::shim::display!(TemplateError);

impl From<AllocError> for TemplateError {
    fn from(error: AllocError) -> TemplateError {
        TemplateError::Memory(error)
    }
}

impl From<ParseError> for TemplateError {
    fn from(error: ParseError) -> TemplateError {
        TemplateError::Parse(error)
    }
}
