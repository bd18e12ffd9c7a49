// Made from crates/pm_token/src/parts.rt by dev/erase: change that file, not this one.
//! Calls for the crates that make tokens. Users of the library do not need them.

use crate::pm_token::errors::LexError;
pub use crate::pm_token::escapes::{TextBuilder, begins_octal, is_bare};
use crate::pm_token::identifiers::Ident;
use crate::pm_token::literals::Literal;
use crate::pm_token::marks::{Punct, Spacing};
use crate::pm_span::Span;
use crate::pm_span::parts::bounds;
use crate::shim::alloc::AllocError;
use crate::shim::fmt;

/// Makes the identifier of this name, which has no `r#` even if it is raw. Out of memory is the only error.
// Inlined, because most tokens of a text are identifiers.
#[cfg_attr(not(debug_assertions), inline(always))]
/// # Contract
///
/// - `requires`: <code>[IsBuiltToken] (tokens.[Name] raw ([chars] name.now))</code>
/// - `ensures ok`: <code>[IfOk] result (λ ident. ident ≡ record { name = [chars] name.now; raw = raw; span =
///   span })</code>
///
/// [IsBuiltToken]: crate::contracts#pm_token.Built.IsBuiltToken
/// [Name]: crate::contracts#lexical.Token.Name
/// [chars]: crate::contracts#std.chars
/// [IfOk]: crate::contracts#std.IfOk
pub fn ident(name: &str, raw: bool, span: Span) -> Result<Ident, AllocError>
{
    Ident::from_parts(name, raw, span)
}

/// Borrows the name of the identifier, without `r#` even if it is raw. Nothing is copied.
///
/// # Contract
///
/// - `ensures`: <code>[chars] result.now ≡ ident.now.name</code>
///
/// [chars]: crate::contracts#std.chars
#[cfg_attr(not(debug_assertions), inline(always))]
pub fn name_of(ident: &Ident) -> &str
{
    ident.name()
}

/// Returns whether the identifier is raw.
///
/// # Contract
///
/// - `ensures`: <code>result ≡ ident.now.raw</code>
#[cfg_attr(not(debug_assertions), inline(always))]
pub fn is_raw(ident: &Ident) -> bool
{
    ident.is_raw()
}

/// Drops the identifier, as `drop` does, but field by field and inlined.
///
/// `drop` takes the address of the whole identifier. So an identifier that was just moved out of a list would
/// first be written to the stack. Here a short name, which owns no memory, costs nothing.
#[cfg_attr(not(debug_assertions), inline(always))]
pub fn discard(ident: Ident) {
    ident.discard();
}

/// Makes the mark of this character.
///
/// # Contract
///
/// - `requires`: <code>[IsTrue] ([is_mark] mark)</code>
/// - `ensures`: <code>result ≡ record { mark = mark; spacing = spacing; span = span }</code>
///
/// [IsTrue]: crate::contracts#std.IsTrue
/// [is_mark]: crate::contracts#lexical.Mark.is_mark
pub fn punct(mark: char, spacing: Spacing, span: Span) -> Punct
{
    Punct::from_parts(mark, spacing, span)
}

/// Makes the literal of this text (`literal-token`). Out of memory is the only error.
///
/// # Contract
///
/// - `requires`: <code>[IsBuiltToken] (tokens.[Literal] ([chars] text.now))</code>
/// - `ensures ok`: <code>[IfOk] result (λ literal. literal ≡ record { text = [chars] text.now; span = span
///   })</code>
///
/// [IsBuiltToken]: crate::contracts#pm_token.Built.IsBuiltToken
/// [Literal]: crate::contracts#lexical.Token.Literal
/// [chars]: crate::contracts#std.chars
/// [IfOk]: crate::contracts#std.IfOk
pub fn literal(text: &str, span: Span) -> Result<Literal, AllocError>
{
    Literal::from_parts(text, span)
}

/// Splits a negative literal into its `-`, which is `Alone`, and its number. Both have the literal's span. Any
/// other literal is returned whole, without a mark. This allocates nothing.
///
/// # Contract
///
/// - `ensures`: <code>[MatchOption] result.0 (([has_minus] literal.text ≡ [false]) × (result.1 ≡ literal)) (λ
///   minus. ([has_minus] literal.text ≡ [true]) × (minus ≡ [minus_of] literal) × (result.1 ≡ [number_of]
///   literal))</code>
///
/// [MatchOption]: crate::contracts#std.MatchOption
/// [has_minus]: crate::contracts#pm_token.Negative.has_minus
/// [false]: crate::contracts#std.false
/// [true]: crate::contracts#std.true
/// [minus_of]: crate::contracts#pm_token.Negative.minus_of
/// [number_of]: crate::contracts#pm_token.Negative.number_of
pub fn split_minus(literal: Literal) -> (Option<Punct>, Literal)
{
    literal.split_minus()
}

/// Makes the string literal of the text. Out of memory is the only error.
///
/// # Contract
///
/// - `ensures ok`: <code>[IfOk] result (λ literal. literal ≡ record { text = [string_text] ([chars] text.now);
///   span = span })</code>
///
/// [IfOk]: crate::contracts#std.IfOk
/// [string_text]: crate::contracts#pm_token.Escaped.string_text
/// [chars]: crate::contracts#std.chars
pub fn string_literal(text: &str, span: Span) -> Result<Literal, AllocError>
{
    Literal::string_at(text, span)
}

/// Makes the syntax error with this span.
///
/// # Contract
///
/// - `ensures`: <code>result ≡ span</code>
pub fn fault(span: Span) -> LexError
{
    LexError::at(span)
}

/// Shows a token's span, unless it is 0..0.
pub fn show_span(debug: &mut core::fmt::DebugStruct<'_, '_>, span: Span) {
    if bounds(span) != (0, 0) {
        debug.field("span", &span);
    }
}
