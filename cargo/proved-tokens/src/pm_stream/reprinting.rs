// Made from crates/pm_stream/src/reprinting.rt by dev/erase: change that file, not this one.
//! Prints a text as its stream is printed, without building trees.

use crate::pm_stream::display::is_brace;
use crate::pm_stream::reading::{Lexed, TokenSink, read};
use crate::pm_span::parts::fits_new;
use crate::pm_token::parts::TextBuilder;
use crate::pm_token::{Delimiter, ParseError};
use crate::shim::alloc::AllocError;

/// Returns the printed text of a text: what Display writes for the stream that it parses to.
///
/// No trees are built. The call allocates memory for the printed text, which is seldom longer than the source, and for
/// a list of the open groups.
///
/// The errors are those of [`parse_unmapped`](crate::pm_stream::TokenStream::parse_unmapped). `Lex` has the position of
/// the fault (`fault`), in characters counted from 1. `MapFull` is returned exactly if the text does not fit a new map
/// (`fits`), and `Memory` if memory runs out.
///
/// `a+=b` gives `a += b`, and `{x}` gives `{ x }`. The fault of `(]` is 2..2.
///
/// # Contract
///
/// - `ensures ok`: <code>[IfOk] result (λ out. [PrintsText] ([next_lo] [new_map]) ([chars] text.now)
///   ([string_bytes] out))</code>
/// - `ensures fault`: <code>[ReportsFault] [IfLex] ([next_lo] [new_map]) ([chars] text.now) result</code>
/// - `ensures map_full`: <code>(result ≡ [Err] ParseError.MapFull) ↔ ([Fits] [new_map] ([length] ([chars]
///   text.now)) → ⊥)</code>
///
/// [IfOk]: crate::contracts#std.IfOk
/// [PrintsText]: crate::contracts#pm_stream.PrintsText.PrintsText
/// [next_lo]: crate::contracts#pm_span.Files.next_lo
/// [new_map]: crate::contracts#pm_span.Files.new_map
/// [chars]: crate::contracts#std.chars
/// [string_bytes]: crate::contracts#std.string_bytes
/// [ReportsFault]: crate::contracts#pm_stream.Parsing.ReportsFault
/// [IfLex]: crate::contracts#pm_token.Outcome.IfLex
/// [Err]: crate::contracts#std.Err
/// [Fits]: crate::contracts#pm_span.Files.Fits
/// [length]: crate::contracts#std.length
pub fn reprint(text: &str) -> Result<String, ParseError>
{
    let Some(lo) = fits_new(text) else {
        return Err(ParseError::MapFull);
    };
    reprint_at(lo, text)
}

/// Returns the printed text of a text that begins at the position `base`.
fn reprint_at(base: u32, text: &str) -> Result<String, ParseError>
{
    let mut printer = Printer {
        text_out: TextBuilder::with_room(text.len())?,
        gap: false,
    };
    read(base, text, &mut printer)?;
    Ok(printer.text_out.into_string())
}

/// A sink that prints the tokens.
struct Printer {
    /// The printed text of what was read so far.
    text_out: TextBuilder,
    /// Whether a space goes before what is printed next.
    gap: bool,
}

/// A group whose closer was not read yet.
struct OpenGroup {
    /// Its delimiter.
    delimiter: Delimiter,
    /// The position of its opener.
    lo: u32,
}

impl TokenSink for Printer {
    type Opened = OpenGroup;

    #[cfg_attr(not(debug_assertions), inline(always))]
    fn opener(group: &OpenGroup) -> (Delimiter, u32) {
        (group.delimiter, group.lo)
    }

    #[cfg_attr(not(debug_assertions), inline(always))]
    fn mark(&mut self, _lexed: Lexed<'_>, joint: bool, mark: char) -> Result<(), AllocError> {
        self.write_char(mark)?;
        self.gap = !joint;
        Ok(())
    }

    #[cfg_attr(not(debug_assertions), inline(always))]
    fn name(&mut self, lexed: Lexed<'_>, _raw: bool, _name: &str) -> Result<(), AllocError> {
        self.write(lexed.own_text())?;
        self.gap = true;
        Ok(())
    }

    #[cfg_attr(not(debug_assertions), inline(always))]
    fn literal(&mut self, lexed: Lexed<'_>) -> Result<(), AllocError> {
        self.write(lexed.own_text())?;
        self.gap = true;
        Ok(())
    }

    #[cfg_attr(not(debug_assertions), inline(always))]
    fn doc(&mut self, _lexed: Lexed<'_>, inner: bool, doc_body: &str) -> Result<(), AllocError> {
        self.push_doc(inner, doc_body)
    }

    #[cfg_attr(not(debug_assertions), inline(always))]
    fn gap(&mut self, _lexed: Lexed<'_>) {}

    #[cfg_attr(not(debug_assertions), inline(always))]
    fn white(&mut self, _text: &str, _size: usize) {}

    #[cfg_attr(not(debug_assertions), inline(always))]
    fn open(&mut self, lexed: Lexed<'_>, delimiter: Delimiter) -> Result<OpenGroup, AllocError> {
        self.write_opening(delimiter)?;
        self.gap = is_brace(delimiter);
        Ok(OpenGroup {
            delimiter,
            lo: lexed.at,
        })
    }

    /// Handles a closer. It is not inlined, so that the loop keeps fewer values in registers for the other, more
    /// frequent pieces.
    #[inline(never)]
    fn close(
        &mut self,
        _lexed: Lexed<'_>,
        delimiter: Delimiter,
        _group: OpenGroup,
    ) -> Result<(), AllocError> {
        push_ending(&mut self.text_out, delimiter)?;
        self.gap = true;
        Ok(())
    }
}

impl Printer {
    /// Prints the text, after a space if one goes before it.
    fn write(&mut self, text: &str) -> Result<(), AllocError>
    {
        if self.gap {
            self.text_out.push(' ')?;
        }
        self.text_out.push_text(text)
    }

    /// Prints the character, after a space if one goes before it. This is faster than `write` with a text of one
    /// character.
    fn write_char(&mut self, c: char) -> Result<(), AllocError>
    {
        if self.gap {
            self.text_out.push(' ')?;
        }
        self.text_out.push(c)
    }

    /// Prints a doc comment: the mark `#`, the mark `!` if it is inner, and the group of its text.
    #[inline(never)]
    fn push_doc(&mut self, inner: bool, text: &str) -> Result<(), AllocError>
    {
        self.write(doc_front(inner))?;
        self.text_out.push_string(text)?;
        self.text_out.push(']')?;
        self.gap = true;
        Ok(())
    }

    /// Prints the opener of a group, after a space if one goes before it.
    #[cfg_attr(not(debug_assertions), inline(always))]
    fn write_opening(&mut self, delimiter: Delimiter) -> Result<(), AllocError>
    {
        match delimiter {
            Delimiter::Parenthesis => self.write_char('('),
            Delimiter::Brace => self.write_char('{'),
            Delimiter::Bracket => self.write_char('['),
            Delimiter::None => self.write(""),
        }
    }
}

/// Prints the closer of a group, with a space before `}`.
fn push_ending(text_out: &mut TextBuilder, delimiter: Delimiter) -> Result<(), AllocError>
{
    match delimiter {
        Delimiter::Parenthesis => text_out.push(')'),
        Delimiter::Brace => {
            text_out.push(' ')?;
            text_out.push('}')
        }
        Delimiter::Bracket => text_out.push(']'),
        Delimiter::None => Ok(()),
    }
}

/// Returns what is printed of a doc comment before its text.
fn doc_front(inner: bool) -> &'static str
{
    if inner { "# ! [doc = " } else { "# [doc = " }
}
