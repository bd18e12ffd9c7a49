// Made from crates/pm_token/src/marks.rt by dev/erase: change that file, not this one.
//! Punctuation marks.

use crate::shim::prelude::TryClone;

use crate::pm_token::parts::show_span;
use crate::pm_span::Span;
use crate::pm_span::parts::bounds;
use crate::shim::alloc::AllocError;
use crate::shim::fmt;

/// Whether a punctuation mark is joint with what directly follows it.
#[derive(Clone, Copy, Debug, PartialEq, Eq)]
pub enum Spacing {
    /// The mark is not joint. The marks made from a doc comment are also `Alone`.
    Alone,
    /// One of the 22 mark characters directly follows, and no comment begins there (`joint`). Or the mark is
    /// the `'` before its identifier (`lone-quote`). In `+=` the `+` is `Joint`, and in `'a` the `'`.
    Joint,
}

/// A punctuation mark, which is one character (`marks`).
pub struct Punct {
    mark: char,
    spacing: Spacing,
    span: Span,
}

impl Punct {
    /// Returns whether the character is one of the 22 punctuation marks (`marks`).
    ///
    /// `+` and `'` are punctuation marks; `_`, `(` and `"` are not.
    ///
    /// # Contract
    ///
    /// - `ensures`: <code>result ≡ [is_mark] c</code>
    ///
    /// [is_mark]: crate::contracts#lexical.Mark.is_mark
    pub fn is_punct_char(c: char) -> bool
    {
        crate::lexical::is_mark(c)
    }

    /// Makes the punctuation mark of this character, with the span 0..0. This allocates nothing.
    ///
    /// The character must be one of the 22 `marks`; [`Punct::is_punct_char`] tests this. The mark of `'+'`
    /// prints as `+`, whatever its spacing.
    ///
    /// # Contract
    ///
    /// - `requires`: <code>[IsTrue] ([is_mark] mark)</code>
    /// - `ensures`: <code>result ≡ record { mark = mark; spacing = spacing; span = [nowhere] }</code>
    ///
    /// [IsTrue]: crate::contracts#std.IsTrue
    /// [is_mark]: crate::contracts#lexical.Mark.is_mark
    /// [nowhere]: crate::contracts#pm_span.Extent.nowhere
    #[cfg_attr(not(debug_assertions), inline(always))]
    pub fn new(mark: char, spacing: Spacing) -> Punct
    {
        Punct::from_parts(mark, spacing, Span::call_site())
    }

    #[cfg_attr(not(debug_assertions), inline(always))]
    pub(crate) fn from_parts(mark: char, spacing: Spacing, span: Span) -> Punct
    {
        Punct {
            mark,
            spacing,
            span,
        }
    }

    /// Returns the mark's character.
    ///
    /// # Contract
    ///
    /// - `ensures`: <code>result ≡ self.now.mark</code>
    #[cfg_attr(not(debug_assertions), inline(always))]
    pub fn as_char(&self) -> char
    {
        self.mark
    }

    /// Returns whether the mark is joint with what directly follows it.
    ///
    /// # Contract
    ///
    /// - `ensures`: <code>result ≡ self.now.spacing</code>
    #[cfg_attr(not(debug_assertions), inline(always))]
    pub fn spacing(&self) -> Spacing
    {
        self.spacing
    }

    /// Returns the mark's span. Its contract also gives what is true of every mark (`built`).
    ///
    /// # Contract
    ///
    /// - `ensures value`: <code>result ≡ self.now.span</code>
    /// - `ensures built`: <code>[IsBuiltToken] ([mark_token] self.now)</code>
    /// - `ensures ordered`: <code>self.now.span.lo ≤ self.now.span.hi</code>
    ///
    /// [IsBuiltToken]: crate::contracts#pm_token.Built.IsBuiltToken
    /// [mark_token]: crate::contracts#pm_token.Leaf.mark_token
    pub fn span(&self) -> Span
    {
        // This computes nothing. It shows to the proof that the span does not end before it begins.
        bounds(self.span);
        self.span
    }

    /// Sets the mark's span, and changes nothing else.
    ///
    /// # Contract
    ///
    /// - `ensures`: <code>self.new ≡ record self.old { span = span }</code>
    pub fn set_span(&mut self, span: Span)
    {
        self.span = span;
    }
}

/// Copies the mark with its span. This allocates nothing.
impl TryClone for Punct {
    #[cfg_attr(not(debug_assertions), inline(always))]
    fn try_clone(&self) -> Result<Punct, AllocError> {
        Ok(Punct {
            mark: self.mark,
            spacing: self.spacing,
            span: self.span,
        })
    }
}

crate::shim::copied!(Punct);

impl fmt::Display for Punct {
    fn fmt<W: fmt::Write>(&self, f: &mut fmt::Formatter<W>) -> fmt::Result {
        f.write_str(text_of(self.mark))
    }
}

crate::shim::display!(Punct);

/// Returns the text of a mark.
// A text of one byte is written by one store; a character would have to be encoded first.
#[cfg_attr(not(debug_assertions), inline(always))]
fn text_of(mark: char) -> &'static str
{
    match mark {
        '~' => "~",
        '!' => "!",
        '@' => "@",
        '#' => "#",
        '$' => "$",
        '%' => "%",
        '^' => "^",
        '&' => "&",
        '*' => "*",
        '-' => "-",
        '=' => "=",
        '+' => "+",
        '|' => "|",
        ';' => ";",
        ':' => ":",
        ',' => ",",
        '<' => "<",
        '.' => ".",
        '>' => ">",
        '/' => "/",
        '?' => "?",
        '\'' => "'",
        _ => unreachable!(),
    }
}

/// Shows the mark, its spacing, and its span unless that is 0..0.
impl fmt::Debug for Punct {
    fn fmt(&self, f: &mut core::fmt::Formatter<'_>) -> fmt::Result {
        let mut debug = f.debug_struct("Punct");
        debug.field("char", &self.mark);
        debug.field("spacing", &self.spacing);
        show_span(&mut debug, self.span);
        debug.finish()
    }
}
