// Made from crates/highlight/src/writing.rt by dev/erase: change that file, not this one.
//! Appends marked pieces to the output.

use proved_tokens::shim::prelude::{Grow, GrowText, format};

use crate::highlight::format::Format;
use crate::highlight::style::Style;
use proved_tokens::explain::Reason;
use proved_tokens::shim::alloc::AllocError;

/// The output so far.
pub struct Sheet {
    /// The text with its marks.
    pub out: String,
    /// The line on which the next piece begins, counted from 1.
    pub line: usize,
    format: Format,
}

impl Sheet {
    /// Returns an empty output, at line 1.
    pub fn new(format: Format) -> Sheet
    {
        Sheet {
            out: String::new(),
            line: 1,
            format,
        }
    }

    /// Appends the text of a piece, marked by its style.
    pub fn push_piece(&mut self, style: Style, text: &str) -> Result<(), AllocError>
    {
        self.push_marked(style.class(), style.colour(), text)
    }

    /// Appends a part of the text that is wrong, with the message of the reason.
    pub fn push_faulty(
        &mut self,
        reason: &Reason,
        text: &str,
    ) -> Result<(), AllocError>
    {
        let class = format!("x title=\"{}\"", reason.message())?;
        self.push_marked(class.as_str(), Style::NoPiece.colour(), text)
    }

    /// Appends the text with this class or in this colour. An empty text gets no mark.
    fn push_marked(&mut self, class: &str, colour: &str, text: &str) -> Result<(), AllocError>
    {
        if text.is_empty() {
            return Ok(());
        }
        match self.format {
            Format::Html => self.push_span(class, text),
            Format::Term => self.push_coloured(colour, text),
        }
    }

    /// Appends the text in a `<span>` of the class, or without one if the class is empty.
    fn push_span(&mut self, class: &str, text: &str) -> Result<(), AllocError>
    {
        if class.is_empty() {
            return self.push_escaped(text);
        }
        self.out.push_str_fallibly("<span class=")?;
        self.out.push_str_fallibly(class)?;
        self.out.push_fallibly('>')?;
        self.push_escaped(text)?;
        self.out.push_str_fallibly("</span>")?;
        Ok(())
    }

    /// Appends the text in the colour, or without one if the colour is empty.
    fn push_coloured(&mut self, colour: &str, text: &str) -> Result<(), AllocError>
    {
        if colour.is_empty() {
            return self.out.push_str_fallibly(text);
        }
        self.out.push_str_fallibly("\x1b[")?;
        self.out.push_str_fallibly(colour)?;
        self.out.push_fallibly('m')?;
        self.out.push_str_fallibly(text)?;
        self.out.push_str_fallibly("\x1b[0m")
    }

    /// Appends the text, escaped, with an anchor after each line feed.
    fn push_escaped(&mut self, text: &str) -> Result<(), AllocError>
    {
        let mut rest = self.push_bare(text)?.chars();
        while let Some(c) = rest.next() {
            self.push_character(c)?;
            rest = self.push_bare(rest.as_str())?.chars();
        }
        Ok(())
    }

    /// Appends the part of the text before the first byte that is escaped, and returns the rest.
    fn push_bare<'a>(&mut self, text: &'a str) -> Result<&'a str, AllocError>
    {
        let size = bare_size(text.as_bytes());
        self.out.push_str_fallibly(&text[..size])?;
        Ok(&text[size..])
    }

    /// Appends a character, escaped if it must be.
    fn push_character(&mut self, c: char) -> Result<(), AllocError>
    {
        match c {
            '\n' => self.push_line_feed(),
            '<' => self.out.push_str_fallibly("&lt;"),
            '>' => self.out.push_str_fallibly("&gt;"),
            '&' => self.out.push_str_fallibly("&amp;"),
            '"' => self.out.push_str_fallibly("&quot;"),
            _ => self.out.push_fallibly(c),
        }
    }

    /// Begins a line, with its anchor. More lines than can be counted count as running out of memory.
    fn push_line_feed(&mut self) -> Result<(), AllocError>
    {
        let Some(line) = self.line.checked_add(1) else {
            return Err(AllocError::met());
        };
        self.line = line;
        self.out.push_str_fallibly("\n<a id=L")?;
        write!(self.out, "{line}")?;
        self.out.push_str_fallibly("></a>")
    }
}

/// Returns how many bytes precede the first byte that is escaped, or the end.
fn bare_size(bytes: &[u8]) -> usize
{
    let mut size = 0;
    while size < bytes.len() {
        if is_escaped(bytes[size]) {
            break;
        }
        size += 1;
    }
    size
}

/// Whether the byte is not appended as it is.
fn is_escaped(byte: u8) -> bool
{
    match byte {
        b'\n' | b'<' | b'>' | b'&' | b'"' => true,
        _ => false,
    }
}
