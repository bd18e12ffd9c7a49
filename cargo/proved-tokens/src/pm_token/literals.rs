// Made from crates/pm_token/src/literals.rt by dev/erase: change that file, not this one.
//! Literals.

use crate::shim::prelude::TryClone;

mod conversion;
mod integers;
mod negative;
mod quoted;
mod subspan;
#[cfg(feature = "whole")]
mod values;
mod whole;

pub use crate::pm_token::literals::conversion::ConversionErrorKind;
use crate::pm_token::parts::show_span;
use crate::pm_token::symbols::Symbol;
use crate::pm_span::Span;
use crate::pm_span::parts::bounds;
use crate::shim::alloc::AllocError;
use crate::shim::fmt;

/// A literal: a string, a character, a byte or a number, kept as its text.
pub struct Literal {
    text: Symbol,
    span: Span,
}

impl Literal {
    /// Makes the literal of this text, with this span. Out of memory is the only error.
    #[cfg_attr(not(debug_assertions), inline(always))]
    pub(crate) fn from_parts(text: &str, span: Span) -> Result<Literal, AllocError>
    {
        Ok(Literal {
            text: Symbol::new(text)?,
            span,
        })
    }

    /// Returns the literal as it is written, with its quotes, its suffix and a `-` before a negative number.
    ///
    /// This is what `to_string()` gives, without a copy. It is not the value: the text of `"a"` has 3 characters.
    ///
    /// # Contract
    ///
    /// - `ensures`: <code>[chars] result.now ≡ self.now.text</code>
    ///
    /// [chars]: crate::contracts#std.chars
    #[cfg_attr(not(debug_assertions), inline(always))]
    pub fn text(&self) -> &str
    {
        self.text.as_str()
    }

    /// Returns the literal's span. Its contract also gives what is true of every literal's text: it is a
    /// `literal-token` or, outside of streams, a `negative-literal`.
    ///
    /// # Contract
    ///
    /// - `ensures value`: <code>result ≡ self.now.span</code>
    /// - `ensures built`: <code>[IsLiteralText] self.now.text</code>
    /// - `ensures ordered`: <code>self.now.span.lo ≤ self.now.span.hi</code>
    ///
    /// [IsLiteralText]: crate::contracts#pm_token.LiteralText.IsLiteralText
    pub fn span(&self) -> Span
    {
        // This computes nothing. It shows to the proof that the span does not end before it begins.
        bounds(self.span);
        self.span
    }

    /// Sets the literal's span, and changes nothing else.
    ///
    /// # Contract
    ///
    /// - `ensures`: <code>self.new ≡ record self.old { span = span }</code>
    pub fn set_span(&mut self, span: Span)
    {
        self.span = span;
    }
}

/// Copies the literal with its span. A text of more than 22 bytes is shared, but copied if it begins with `-`.
/// The copy fails if a shared text has more owners than can be counted, or if memory runs out.
impl TryClone for Literal {
    #[cfg_attr(not(debug_assertions), inline(always))]
    fn try_clone(&self) -> Result<Literal, AllocError> {
        Ok(Literal {
            text: self.text.try_clone()?,
            span: self.span,
        })
    }
}

crate::shim::copied!(Literal);

impl fmt::Display for Literal {
    fn fmt<W: fmt::Write>(&self, f: &mut fmt::Formatter<W>) -> fmt::Result {
        self.text.fmt(f)
    }
}

crate::shim::display!(Literal);

/// Shows the literal as it is written, and its span unless that is 0..0.
impl fmt::Debug for Literal {
    fn fmt(&self, f: &mut core::fmt::Formatter<'_>) -> fmt::Result {
        let mut debug = f.debug_struct("Literal");
        debug.field("lit", &format_args!("{self}"));
        show_span(&mut debug, self.span);
        debug.finish()
    }
}
