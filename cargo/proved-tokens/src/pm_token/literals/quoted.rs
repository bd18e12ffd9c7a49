// Made from crates/pm_token/src/literals/quoted.rt by dev/erase: change that file, not this one.
//! Makes literals of texts, characters and bytes.

use crate::pm_token::escapes::{TextBuilder, stands_for_itself};
use crate::pm_token::literals::Literal;
use crate::pm_token::symbols::Symbol;
use crate::pm_span::Span;
use crate::shim::alloc::AllocError;
use crate::shim::str;

/// Returns the character literal's text if the character is ASCII and needs no escape. This allocates nothing.
fn plain_character(c: char) -> Option<Symbol>
{
    if !c.is_ascii() || !stands_for_itself(c as u8, '\'') {
        return None;
    }
    let end = [c as u8, b'\''];
    let Ok(end) = str::from_utf8(&end) else {
        return None;
    };
    let text = Symbol::concatenation("'", end)?;
    Some(text)
}

/// Returns the text of the character's literal. Out of memory is the only error.
fn between_quotes(c: char) -> Result<Symbol, AllocError>
{
    if let Some(text) = plain_character(c) {
        return Ok(text);
    }
    let mut builder = TextBuilder::new();
    builder.push('\'')?;
    builder.push_escaped('\'', c, "")?;
    builder.push('\'')?;
    let text = builder.finish()?;
    Ok(text)
}

/// Literals of texts, characters and bytes.
impl Literal {
    /// Makes the string literal of the text (`string-text`), with the span 0..0. For CR, a quote and U+0301 it
    /// is `"\r\"\u{301}"`. Out of memory is the only error.
    ///
    /// # Contract
    ///
    /// - `ensures ok`: <code>[IfOk] result (λ literal. literal ≡ record { text = [string_text] ([chars] text.now);
    ///   span = [nowhere] })</code>
    ///
    /// [IfOk]: crate::contracts#std.IfOk
    /// [string_text]: crate::contracts#pm_token.Escaped.string_text
    /// [chars]: crate::contracts#std.chars
    /// [nowhere]: crate::contracts#pm_span.Extent.nowhere
    pub fn string(text: &str) -> Result<Literal, AllocError>
    {
        Literal::string_at(text, Span::call_site())
    }

    /// Makes the string literal of the text, with this span. Out of memory is the only error.
    pub(crate) fn string_at(text: &str, span: Span) -> Result<Literal, AllocError>
    {
        // Most texts have nothing to escape. Otherwise the builder grows.
        let mut builder = TextBuilder::with_room(text.len() + 2)?;
        builder.push('"')?;
        builder.push_content('"', text)?;
        builder.push('"')?;
        Ok(Literal {
            text: builder.finish()?,
            span,
        })
    }

    /// Makes the literal of the character (`character-text`), with the span 0..0. For `'` it is `'\''`, and for
    /// `"` it is `'"'`. Out of memory is the only error.
    ///
    /// # Contract
    ///
    /// - `ensures ok`: <code>[IfOk] result (λ literal. literal ≡ record { text = [character_text] c; span =
    ///   [nowhere] })</code>
    ///
    /// [IfOk]: crate::contracts#std.IfOk
    /// [character_text]: crate::contracts#pm_token.Escaped.character_text
    /// [nowhere]: crate::contracts#pm_span.Extent.nowhere
    pub fn character(c: char) -> Result<Literal, AllocError>
    {
        Ok(Literal {
            text: between_quotes(c)?,
            span: Span::call_site(),
        })
    }

    /// Makes the literal of the byte (`byte-text`), with the span 0..0. For 0x1F it is `b'\x1F'`. Out of memory
    /// is the only error.
    ///
    /// # Contract
    ///
    /// - `ensures ok`: <code>[IfOk] result (λ literal. literal ≡ record { text = [byte_text] byte; span = [nowhere]
    ///   })</code>
    ///
    /// [IfOk]: crate::contracts#std.IfOk
    /// [byte_text]: crate::contracts#pm_token.Escaped.byte_text
    /// [nowhere]: crate::contracts#pm_span.Extent.nowhere
    pub fn byte_character(byte: u8) -> Result<Literal, AllocError>
    {
        let mut builder = TextBuilder::new();
        builder.push('b')?;
        builder.push('\'')?;
        builder.push_byte(b'\'', byte, &[])?;
        builder.push('\'')?;
        Ok(Literal {
            text: builder.finish()?,
            span: Span::call_site(),
        })
    }

    /// Makes the byte string literal of the bytes (`byte-string-text`), with the span 0..0. For `"`, 0 and `7`
    /// it is `b"\"\x007"`. Out of memory is the only error.
    ///
    /// # Contract
    ///
    /// - `ensures ok`: <code>[IfOk] result (λ literal. literal ≡ record { text = [byte_string_text] bytes.now; span =
    ///   [nowhere] })</code>
    ///
    /// [IfOk]: crate::contracts#std.IfOk
    /// [byte_string_text]: crate::contracts#pm_token.Escaped.byte_string_text
    /// [nowhere]: crate::contracts#pm_span.Extent.nowhere
    pub fn byte_string(bytes: &[u8]) -> Result<Literal, AllocError>
    {
        let mut builder = TextBuilder::new();
        builder.push('b')?;
        builder.push('"')?;
        builder.push_bytes(b'"', bytes)?;
        builder.push('"')?;
        Ok(Literal {
            text: builder.finish()?,
            span: Span::call_site(),
        })
    }

    /// Makes the C string literal of the bytes (`c-string-text`), with the span 0..0. No byte may be zero: the
    /// zero that ends a C string is not written in its literal. For 0x7F, 0xFF and the bytes of U+0333 it is
    /// `c"\u{7f}\xFF\u{333}"`. Out of memory is the only error.
    ///
    /// # Contract
    ///
    /// - `requires`: <code>[IsTrue] ([has_no_zero] bytes.now)</code>
    /// - `ensures ok`: <code>[IfOk] result (λ literal. [IsCStringText] bytes.now literal.text × (literal.span ≡
    ///   [nowhere]))</code>
    ///
    /// [IsTrue]: crate::contracts#std.IsTrue
    /// [has_no_zero]: crate::contracts#pm_token.CString.has_no_zero
    /// [IfOk]: crate::contracts#std.IfOk
    /// [IsCStringText]: crate::contracts#pm_token.CString.IsCStringText
    /// [nowhere]: crate::contracts#pm_span.Extent.nowhere
    pub fn c_string(bytes: &[u8]) -> Result<Literal, AllocError>
    {
        let mut builder = TextBuilder::new();
        builder.push('c')?;
        builder.push('"')?;
        builder.push_c_string(bytes)?;
        builder.push('"')?;
        Ok(Literal {
            text: builder.finish()?,
            span: Span::call_site(),
        })
    }
}
