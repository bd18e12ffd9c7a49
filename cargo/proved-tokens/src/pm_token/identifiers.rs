// Made from crates/pm_token/src/identifiers.rt by dev/erase: change that file, not this one.
//! Identifiers.

use crate::shim::prelude::TryClone;

mod comparisons;
mod faults;

use crate::pm_token::parts::show_span;
use crate::pm_token::symbols::Name;
pub use faults::IdentError;
use faults::fault;
use crate::pm_span::Span;
use crate::pm_span::parts::bounds;
use crate::shim::alloc::AllocError;
use crate::shim::fmt;

/// An identifier or a keyword, raw or plain.
///
/// A raw identifier is written with `r#`. Its text has the `r#` too: that of `r#fn` is `r#fn`, and `r#fn` is not equal
/// to the text `fn`.
pub struct Ident {
    name: Name,
    span: Span,
}

impl Ident {
    /// Makes the identifier of this name, which has no `r#`. Out of memory is the only error.
    #[cfg_attr(not(debug_assertions), inline(always))]
    pub(crate) fn from_parts(
        name: &str,
        raw: bool,
        span: Span,
    ) -> Result<Ident, AllocError>
    {
        Ok(Ident {
            name: Name::new(name, raw)?,
            span,
        })
    }

    /// Drops the identifier field by field, so that a short name need not be written to memory first.
    #[cfg_attr(not(debug_assertions), inline(always))]
    pub(crate) fn discard(self) {
        self.name.discard();
    }

    /// Makes the identifier of this name, if the name is valid.
    #[cfg_attr(not(debug_assertions), inline(always))]
    fn valid_ident(name: &str, raw: bool, span: Span) -> Result<Ident, IdentError>
    {
        match fault(name, raw) {
            Some(error) => Err(error),
            None => Ok(Ident::from_parts(name, raw, span)?),
        }
    }

    /// Makes the plain identifier of this name, with this span.
    ///
    /// Keywords are accepted: only a compiler of the printed tokens rejects `fn` as the name of a variable.
    ///
    /// The error is the first that is true of the name (`identifier-fault`). `Empty` means that the name has no
    /// characters, and `Number` that it has only ASCII digits. `Invalid` means that it is not a character that
    /// may begin an identifier, followed by characters that may continue one. `Memory` comes only for a valid
    /// name. `255` is a `Number`, and `r#a` is `Invalid`.
    ///
    /// # Contract
    ///
    /// - `ensures ok`: <code>[IfOk] result (λ ident. ident ≡ record { name = [chars] name.now; raw = [false]; span =
    ///   span })</code>
    /// - `ensures empty`: <code>(result ≡ [Err] IdentError.Empty) ↔ ([ident_fault] [false] ([chars] name.now) ≡
    ///   [Some] IdentError.Empty)</code>
    /// - `ensures number`: <code>(result ≡ [Err] IdentError.Number) ↔ ([ident_fault] [false] ([chars] name.now) ≡
    ///   [Some] IdentError.Number)</code>
    /// - `ensures invalid`: <code>(result ≡ [Err] IdentError.Invalid) ↔ ([ident_fault] [false] ([chars] name.now) ≡
    ///   [Some] IdentError.Invalid)</code>
    /// - `ensures reserved`: <code>(result ≡ [Err] IdentError.Reserved) ↔ ([ident_fault] [false] ([chars] name.now)
    ///   ≡ [Some] IdentError.Reserved)</code>
    ///
    /// [IfOk]: crate::contracts#std.IfOk
    /// [chars]: crate::contracts#std.chars
    /// [false]: crate::contracts#std.false
    /// [Err]: crate::contracts#std.Err
    /// [ident_fault]: crate::contracts#pm_token.IdentFault.ident_fault
    /// [Some]: crate::contracts#std.Some
    #[cfg_attr(not(debug_assertions), inline(always))]
    pub fn new(name: &str, span: Span) -> Result<Ident, IdentError>
    {
        Ident::valid_ident(name, false, span)
    }

    /// Makes the raw identifier of this name, which is given without `r#`, with this span.
    ///
    /// The errors are those of [`new`](Ident::new), and then `Reserved` if the name is `_`, `super`, `self`,
    /// `Self` or `crate`. The name `fn` makes `r#fn`.
    ///
    /// # Contract
    ///
    /// - `ensures ok`: <code>[IfOk] result (λ ident. ident ≡ record { name = [chars] name.now; raw = [true]; span =
    ///   span })</code>
    /// - `ensures empty`: <code>(result ≡ [Err] IdentError.Empty) ↔ ([ident_fault] [true] ([chars] name.now) ≡
    ///   [Some] IdentError.Empty)</code>
    /// - `ensures number`: <code>(result ≡ [Err] IdentError.Number) ↔ ([ident_fault] [true] ([chars] name.now) ≡
    ///   [Some] IdentError.Number)</code>
    /// - `ensures invalid`: <code>(result ≡ [Err] IdentError.Invalid) ↔ ([ident_fault] [true] ([chars] name.now) ≡
    ///   [Some] IdentError.Invalid)</code>
    /// - `ensures reserved`: <code>(result ≡ [Err] IdentError.Reserved) ↔ ([ident_fault] [true] ([chars] name.now)
    ///   ≡ [Some] IdentError.Reserved)</code>
    ///
    /// [IfOk]: crate::contracts#std.IfOk
    /// [chars]: crate::contracts#std.chars
    /// [true]: crate::contracts#std.true
    /// [Err]: crate::contracts#std.Err
    /// [ident_fault]: crate::contracts#pm_token.IdentFault.ident_fault
    /// [Some]: crate::contracts#std.Some
    #[cfg_attr(not(debug_assertions), inline(always))]
    pub fn new_raw(name: &str, span: Span) -> Result<Ident, IdentError>
    {
        Ident::valid_ident(name, true, span)
    }

    /// Returns whether `text` is how the identifier is written: a raw `a` is written `r#a`, and not `a`.
    ///
    /// If the text is a constant, as in `name.eq_str("fn")`, the clause `spelled` gives a proof that the
    /// identifier is written `fn`: `spelled (codes "fn")` computes to `codes "fn"`.
    ///
    /// # Contract
    ///
    /// - `ensures exactly`: <code>[IsTrue] result ↔ ([name_text] self.now ≡ [chars] text.now)</code>
    /// - `ensures value`: <code>result ≡ [pointwise] [nat_eq] ([name_text] self.now) ([chars] text.now)</code>
    /// - `ensures spelled`: <code>[IsTrue] result ↔ ([name_text] self.now ≡ [spelled] text.now)</code>
    /// - `ensures computed`: <code>result ≡ [pointwise] [nat_eq] ([name_text] self.now) ([spelled] text.now)</code>
    ///
    /// [IsTrue]: crate::contracts#std.IsTrue
    /// [name_text]: crate::contracts#pm_token.Spelling.name_text
    /// [chars]: crate::contracts#std.chars
    /// [pointwise]: crate::contracts#std.pointwise
    /// [nat_eq]: crate::contracts#std.nat_eq
    /// [spelled]: crate::contracts#pm_token.Spelling.spelled
    #[cfg_attr(not(debug_assertions), inline(always))]
    pub fn eq_str(&self, text: &str) -> bool

        // These two clauses compute if the text is a constant and ASCII.
    {
        // Most identifiers are plain and short. The text comes first, because the compiler often knows its
        // length.
        match self.name.plain_bytes() {
            Some(name) => text.as_bytes() == name,
            None => self.is_written(text),
        }
    }

    /// Does what `eq_str` does, for any identifier.
    #[inline(never)]
    fn is_written(&self, text: &str) -> bool
    {
        let name = self.name.as_bytes();
        if !self.name.is_raw() {
            return name == text.as_bytes();
        }
        match text.strip_prefix("r#") {
            Some(rest) => name == rest.as_bytes(),
            None => false,
        }
    }

    /// Returns the first byte of the identifier as it is written: `a` for `ab`, and `r` for a raw `ab`.
    ///
    /// A caller that looks for one of many words needs to compare only those that begin with this byte.
    ///
    /// # Contract
    ///
    /// - `ensures`: <code>result ≡ [get_or] ([spelling] self.now) 0 0</code>
    ///
    /// [get_or]: crate::contracts#std.get_or
    /// [spelling]: crate::contracts#pm_token.Spelling.spelling
    #[cfg_attr(not(debug_assertions), inline(always))]
    pub fn first_byte(&self) -> u8
    {
        if self.name.is_raw() {
            return b'r';
        }
        match self.name.as_bytes().split_first() {
            Some((byte, _)) => *byte,
            None => 0,
        }
    }

    /// Returns the name, without `r#`.
    #[cfg_attr(not(debug_assertions), inline(always))]
    pub(crate) fn name(&self) -> &str
    {
        self.name.as_str()
    }

    /// Returns whether the identifier is raw.
    #[cfg_attr(not(debug_assertions), inline(always))]
    pub(crate) fn is_raw(&self) -> bool
    {
        self.name.is_raw()
    }

    /// Returns the identifier's span. Its contract also gives what is true of every identifier (`built`).
    ///
    /// # Contract
    ///
    /// - `ensures value`: <code>result ≡ self.now.span</code>
    /// - `ensures built`: <code>[IsBuiltToken] ([name_token] self.now)</code>
    /// - `ensures ordered`: <code>self.now.span.lo ≤ self.now.span.hi</code>
    ///
    /// [IsBuiltToken]: crate::contracts#pm_token.Built.IsBuiltToken
    /// [name_token]: crate::contracts#pm_token.Leaf.name_token
    pub fn span(&self) -> Span
    {
        let Ident { span, .. } = self;
        // This computes nothing. It shows to the proof that the span does not end before it begins.
        bounds(*span);
        *span
    }

    /// Sets the identifier's span, and changes nothing else.
    ///
    /// # Contract
    ///
    /// - `ensures`: <code>self.new ≡ record self.old { span = span }</code>
    pub fn set_span(&mut self, span: Span)
    {
        self.span = span;
    }
}

/// Copies the identifier with its span. This allocates nothing, because a name of more than 22 bytes is shared.
/// The copy fails if such a name has more owners than can be counted.
impl TryClone for Ident {
    #[cfg_attr(not(debug_assertions), inline(always))]
    fn try_clone(&self) -> Result<Ident, AllocError> {
        Ok(Ident {
            name: self.name.try_clone()?,
            span: self.span,
        })
    }
}

crate::shim::copied!(Ident);

impl fmt::Display for Ident {
    fn fmt<W: fmt::Write>(&self, f: &mut fmt::Formatter<W>) -> fmt::Result {
        if self.name.is_raw() {
            f.write_str("r#")?;
        }
        self.name.fmt(f)
    }
}

crate::shim::display!(Ident);

/// Shows the identifier as it is written, and its span unless that is 0..0.
impl fmt::Debug for Ident {
    fn fmt(&self, f: &mut core::fmt::Formatter<'_>) -> fmt::Result {
        let mut debug = f.debug_struct("Ident");
        debug.field("sym", &format_args!("{self}"));
        show_span(&mut debug, self.span);
        debug.finish()
    }
}
