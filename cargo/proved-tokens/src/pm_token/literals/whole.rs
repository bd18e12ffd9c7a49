// Made from crates/pm_token/src/literals/whole.rt by dev/erase: change that file, not this one.
//! Parses a literal from its text.

use crate::pm_token::errors::{LexError, ParseError};
use crate::pm_token::literals::Literal;
use crate::lexical::literal_at;
use crate::pm_span::parts::{add_file, char_count, fits, span_of};
use crate::pm_span::{SourceMap, Span};
use crate::shim::alloc::AllocError;

impl Literal {
    /// Parses a text that is one literal, or `-` and a literal that begins with a digit (`whole-literal`).
    ///
    /// The text becomes the next file of the map, and the literal's span is all of it. Nothing may be before or
    /// after the literal, not even white space.
    ///
    /// A text that is anything else is rejected with `Lex` and the span 0..0, and becomes a file of the map
    /// too. `MapFull` comes exactly if the text would end past the map's limit (`fits`), and `Memory` if memory
    /// runs out. Both leave the map as it was.
    ///
    /// In a new map `-1u12` gives the literal of this text at 1..6. `- 1` and `-""` are rejected.
    ///
    /// # Contract
    ///
    /// - `ensures ok`: <code>[IfOk] result (λ literal. literal ≡ record { text = [chars] text.now; span = record {
    ///   lo = [next_lo] map.old; hi = [next_lo] map.old + [length] ([chars] text.now) }; })</code>
    /// - `ensures whole`: <code>[IfOk] result (λ \_. [IsWholeLiteral] ([chars] text.now))</code>
    /// - `ensures within`: <code>[IsTrue] ([was_read] result) → [Fits] map.old ([length] ([chars] text.now))</code>
    /// - `ensures lex`: <code>[IfErr] result (λ error. [IfLex] error (λ fault. (fault ≡ [nowhere]) ×
    ///   ([IsWholeLiteral] ([chars] text.now) → ⊥)))</code>
    /// - `ensures held`: <code>[MatchResult] result (λ literal. [Holds] map.new literal.span) (λ error. [IfLex]
    ///   error ([Holds] map.new))</code>
    /// - `ensures map_full`: <code>(result ≡ [Err] ParseError.MapFull) ↔ ([Fits] map.old ([length] ([chars]
    ///   text.now)) → ⊥)</code>
    /// - `ensures kept`: <code>map.new ≡ (if [was_read] result then [with_file] map.old ([chars] text.now) else
    ///   map.old)</code>
    ///
    /// [IfOk]: crate::contracts#std.IfOk
    /// [chars]: crate::contracts#std.chars
    /// [next_lo]: crate::contracts#pm_span.Files.next_lo
    /// [length]: crate::contracts#std.length
    /// [IsWholeLiteral]: crate::contracts#pm_token.LiteralText.IsWholeLiteral
    /// [IsTrue]: crate::contracts#std.IsTrue
    /// [was_read]: crate::contracts#pm_token.Outcome.was_read
    /// [Fits]: crate::contracts#pm_span.Files.Fits
    /// [IfErr]: crate::contracts#std.IfErr
    /// [IfLex]: crate::contracts#pm_token.Outcome.IfLex
    /// [nowhere]: crate::contracts#pm_span.Extent.nowhere
    /// [MatchResult]: crate::contracts#std.MatchResult
    /// [Holds]: crate::contracts#pm_span.Files.Holds
    /// [Err]: crate::contracts#std.Err
    /// [with_file]: crate::contracts#pm_span.Files.with_file
    pub fn from_str(text: &str, map: &mut SourceMap) -> Result<Literal, ParseError>
    {
        let Some(lo) = fits(map, text) else {
            return Err(ParseError::MapFull);
        };
        let span = span_of(lo, lo + char_count(text) as u32);
        let literal = Literal::whole_at(text, span);
        if let Err(ParseError::Memory(_)) = &literal {
            return literal;
        }
        add_file(map, text)?;
        literal
    }

    /// Parses a text that is one literal, and gives the literal this span. Any other text is a syntax error.
    fn whole_at(text: &str, span: Span) -> Result<Literal, ParseError>
    {
        if !Literal::is_whole(text) {
            return Err(ParseError::Lex(LexError::at(Span::call_site())));
        }
        Ok(Literal::from_parts(text, span)?)
    }

    /// Makes the literal of this text, with the span 0..0. The text must be a literal (`is_whole`). Out of
    /// memory is the only error. For `1.5` it is `1.5`.
    ///
    /// # Contract
    ///
    /// - `requires`: <code>[IsWholeLiteral] ([chars] text.now)</code>
    /// - `ensures ok`: <code>[IfOk] result (λ literal. literal ≡ record { text = [chars] text.now; span = [nowhere]
    ///   })</code>
    ///
    /// [IsWholeLiteral]: crate::contracts#pm_token.LiteralText.IsWholeLiteral
    /// [chars]: crate::contracts#std.chars
    /// [IfOk]: crate::contracts#std.IfOk
    /// [nowhere]: crate::contracts#pm_span.Extent.nowhere
    pub fn from_str_unchecked(text: &str) -> Result<Literal, AllocError>
    {
        Literal::from_parts(text, Span::call_site())
    }

    /// Returns whether the text is a literal, or `-` and a literal that begins with a digit (`whole-literal`).
    /// These are the texts that `from_str` accepts: `1u8`, `-0.1` and `"a"`, but not `- 1`, `1 ` or `-""`.
    ///
    /// # Contract
    ///
    /// - `ensures`: <code>[IsTrue] result ↔ [IsWholeLiteral] ([chars] text.now)</code>
    ///
    /// [IsTrue]: crate::contracts#std.IsTrue
    /// [IsWholeLiteral]: crate::contracts#pm_token.LiteralText.IsWholeLiteral
    /// [chars]: crate::contracts#std.chars
    pub fn is_whole(text: &str) -> bool
    {
        match skip_minus(text) {
            Some(number) => begins_with_digit(number) && is_literal(number),
            None => is_literal(text),
        }
    }
}

/// Returns the text after its first character if that is `-`.
fn skip_minus(text: &str) -> Option<&str>
{
    text.strip_prefix('-')
}

/// Returns whether the text begins with an ASCII digit.
fn begins_with_digit(text: &str) -> bool
{
    match text.chars().next() {
        Some(c) => c.is_ascii_digit(),
        None => false,
    }
}

/// Returns whether the whole text is a literal of the grammar.
fn is_literal(text: &str) -> bool
{
    literal_at(text) == Some(text.len())
}
