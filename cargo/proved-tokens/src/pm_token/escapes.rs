// Made from crates/pm_token/src/escapes.rt by dev/erase: change that file, not this one.
//! Writes the text of literals that have quotes.

use crate::shim::prelude::{Grow, GrowText};

mod bytes;
mod c_strings;
mod words;

use crate::pm_token::escapes::words::count_in_string;
use crate::pm_token::symbols::Symbol;
use crate::shim::alloc::AllocError;
use crate::shim::ucd_category::GeneralCategory;

/// A text that is being written. Contracts speak of its characters.
pub struct TextBuilder {
    text: String,
}

impl TextBuilder {
    /// Makes an empty builder.
    pub(crate) fn new() -> TextBuilder
    {
        TextBuilder {
            text: String::new(),
        }
    }

    /// Makes an empty builder with room for this number of bytes. Out of memory is the only error.
    ///
    /// # Contract
    ///
    /// - `ensures`: <code>[IfOk] result (λ builder. builder ≡ \[\])</code>
    ///
    /// [IfOk]: crate::contracts#std.IfOk
    pub fn with_room(bytes: usize) -> Result<TextBuilder, AllocError>
    {
        Ok(TextBuilder {
            text: String::with_capacity_fallibly(bytes)?,
        })
    }

    /// Returns what was written as the text of a token. Out of memory is the only error.
    pub(crate) fn finish(self) -> Result<Symbol, AllocError>
    {
        Symbol::from_string(self.text)
    }

    /// Returns what was written. This allocates nothing.
    ///
    /// # Contract
    ///
    /// - `ensures`: <code>[string_bytes] result ≡ [encode_utf8_all] self</code>
    ///
    /// [string_bytes]: crate::contracts#std.string_bytes
    /// [encode_utf8_all]: crate::contracts#std.encode_utf8_all
    pub fn into_string(self) -> String
    {
        self.text
    }

    /// Writes the text. Out of memory is the only error.
    ///
    /// # Contract
    ///
    /// - `ensures ok`: <code>[OnOk] result (self.new ≡ self.old ++ [chars] text.now)</code>
    ///
    /// [OnOk]: crate::contracts#std.OnOk
    /// [chars]: crate::contracts#std.chars
    pub fn push_text(&mut self, text: &str) -> Result<(), AllocError>
    {
        self.text.push_str_fallibly(text)
    }

    /// Writes the string literal of the text. Out of memory is the only error.
    ///
    /// # Contract
    ///
    /// - `ensures ok`: <code>[OnOk] result (self.new ≡ self.old ++ [string_text] ([chars] text.now))</code>
    ///
    /// [OnOk]: crate::contracts#std.OnOk
    /// [string_text]: crate::contracts#pm_token.Escaped.string_text
    /// [chars]: crate::contracts#std.chars
    pub fn push_string(&mut self, text: &str) -> Result<(), AllocError>
    {
        self.push('"')?;
        self.push_content('"', text)?;
        self.push('"')
    }

    /// Writes the character. Out of memory is the only error.
    ///
    /// # Contract
    ///
    /// - `ensures ok`: <code>[OnOk] result (self.new ≡ self.old ++ c ∷ \[\])</code>
    ///
    /// [OnOk]: crate::contracts#std.OnOk
    pub fn push(&mut self, c: char) -> Result<(), AllocError>
    {
        self.text.push_fallibly(c)
    }

    /// Writes a backslash and the letter.
    pub(crate) fn push_short(&mut self, letter: char) -> Result<(), AllocError>
    {
        self.push('\\')?;
        self.push(letter)
    }

    /// Writes `\x00`.
    pub(crate) fn push_long_zero(&mut self) -> Result<(), AllocError>
    {
        self.push_short('x')?;
        self.push('0')?;
        self.push('0')
    }

    /// Writes the character as its number, such as `\u{1f}`.
    fn push_unicode(&mut self, c: char) -> Result<(), AllocError>
    {
        for unit in c.escape_unicode() {
            self.push(unit)?;
        }
        Ok(())
    }

    /// Writes a character that has no short escape, for a string.
    fn push_char(&mut self, c: char) -> Result<(), AllocError>
    {
        if is_bare(c) {
            self.push(c)
        } else {
            self.push_unicode(c)
        }
    }

    /// Writes the character for a literal in these quotes, whose content goes on with `rest`.
    pub(crate) fn push_escaped(
        &mut self,
        quote: char,
        c: char,
        rest: &str,
    ) -> Result<(), AllocError>
    {
        match c {
            '\0' if begins_octal(rest) => self.push_long_zero(),
            '\0' => self.push_short('0'),
            '\t' => self.push_short('t'),
            '\r' => self.push_short('r'),
            '\n' => self.push_short('n'),
            '\\' => self.push_short('\\'),
            _ if c == quote => self.push_short(quote),
            _ => self.push_char(c),
        }
    }

    /// Writes the ASCII characters that the text begins with, as far as they need no escape between these
    /// quotes. It returns the rest of the text.
    #[cfg_attr(not(debug_assertions), inline(always))]
    fn push_plain<'a>(&mut self, quote: char, text: &'a str) -> Result<&'a str, AllocError>
    {
        let size = count_plain(text.as_bytes(), quote);
        let (front, rest) = text.split_at(size);
        self.text.push_str_fallibly(front)?;
        Ok(rest)
    }

    /// Writes the characters of the text for a literal in these quotes. Out of memory is the only error.
    ///
    /// # Contract
    ///
    /// - `ensures ok`: <code>[OnOk] result (self.new ≡ self.old ++ [content] quote [written_char] ([chars]
    ///   text.now))</code>
    ///
    /// [OnOk]: crate::contracts#std.OnOk
    /// [content]: crate::contracts#pm_token.Escaped.content
    /// [written_char]: crate::contracts#pm_token.Escaped.written_char
    /// [chars]: crate::contracts#std.chars
    pub fn push_content(&mut self, quote: char, text: &str) -> Result<(), AllocError>
    {
        let mut rest = self.push_plain(quote, text)?.chars();
        while let Some(c) = rest.next() {
            self.push_escaped(quote, c, rest.as_str())?;
            rest = self.push_plain(quote, rest.as_str())?.chars();
        }
        Ok(())
    }
}

/// Returns how many of the first bytes are ASCII characters that need no escape between these quotes.
///
/// Words of 8 bytes are faster from two words on.
fn count_plain(bytes: &[u8], quote: char) -> usize
{
    if quote == '"' && bytes.len() >= 16 {
        count_in_string(bytes)
    } else {
        count_by_bytes(bytes, quote)
    }
}

/// Does what `count_plain` does, one byte at a time.
fn count_by_bytes(bytes: &[u8], quote: char) -> usize
{
    let mut count = 0;
    while count < bytes.len() {
        if !stands_for_itself(bytes[count], quote) {
            break;
        }
        count += 1;
    }
    count
}

/// Returns whether the byte is a printable ASCII character and neither this quote nor a backslash.
#[cfg_attr(not(debug_assertions), inline(always))]
pub(crate) fn stands_for_itself(byte: u8, quote: char) -> bool
{
    byte >= b' ' && byte < 0x7F && byte != b'\\' && char::from(byte) != quote
}

/// Returns whether the text begins with one of the digits 0 to 7.
///
/// # Contract
///
/// - `ensures`: <code>result ≡ [first_passes] [is_octal_digit] ([chars] text.now)</code>
///
/// [first_passes]: crate::contracts#lexical.Text.first_passes
/// [is_octal_digit]: crate::contracts#lexical.Quoted.is_octal_digit
/// [chars]: crate::contracts#std.chars
pub fn begins_octal(text: &str) -> bool
{
    match text.chars().next() {
        Some(c) => c.is_digit(8),
        None => false,
    }
}

/// Returns whether the character needs no escape in a string literal, quotes and backslashes aside (`bare`).
///
/// # Contract
///
/// - `ensures`: <code>result ≡ [bare] c</code>
///
/// [bare]: crate::contracts#pm_token.Escaped.is_bare
pub fn is_bare(c: char) -> bool
{
    if c.is_ascii() {
        return c >= ' ' && c != '\u{7F}';
    }
    !hides(GeneralCategory::for_char(c))
}

/// Returns whether characters of this category are invisible, or show only on their neighbours (`hidden`).
fn hides(category: GeneralCategory) -> bool
{
    matches!(
        category,
        GeneralCategory::NonspacingMark
            | GeneralCategory::EnclosingMark
            | GeneralCategory::SpaceSeparator
            | GeneralCategory::LineSeparator
            | GeneralCategory::ParagraphSeparator
            | GeneralCategory::Control
            | GeneralCategory::Format
            | GeneralCategory::PrivateUse
            | GeneralCategory::Unassigned
    )
}
