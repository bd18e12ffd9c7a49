// Made from crates/rust_check/src/ends.rt by dev/erase: change that file, not this one.
//! What is odd about the line ends of a text.

use crate::rust_check::finding::{Finding, TextPosition};
use crate::rust_check::options::Form;
use crate::rust_check::writing::write_line;
use proved_tokens::shim::io;
use proved_tokens::shim::io::Write;

/// How the lines of a text end.
#[derive(Clone, Copy, Debug, PartialEq, Eq)]
pub enum Style {
    /// No line has ended.
    Unknown,
    /// Each line ends with LF alone.
    Feed,
    /// Each line ends with CR and LF.
    Return,
    /// Some lines end with LF alone, and others with CR and LF.
    Mixed,
}

/// What is known about the line ends before a character.
#[derive(Clone, Copy, Debug, PartialEq, Eq)]
pub struct LineEnds {
    /// How the lines end.
    pub style: Style,
    /// Whether the character follows a CR.
    pub after_return: bool,
}

/// Writes a line for each CR that no LF follows, and one for the first line end that differs from those before it.
pub fn tell_line_ends<W: Write>(
    form: Form,
    path: &str,
    text: &str,
    found: &mut bool,
    writer: &mut W,
) -> io::Result<()>
{
    let mut place = TextPosition::front();
    let mut ends = LineEnds {
        style: Style::Unknown,
        after_return: false,
    };
    let mut rest = text.chars();
    while let Some(c) = rest.next() {
        tell_end(
            form,
            path,
            ends,
            place,
            c,
            rest.as_str(),
            found,
            writer,
        )?;
        ends = ends.after(c);
        place = place.after(c);
    }
    Ok(())
}

/// Writes a line for the character `c` at `place`, if it is odd. `rest` follows the character.
fn tell_end<W: Write>(
    form: Form,
    path: &str,
    ends: LineEnds,
    place: TextPosition,
    c: char,
    rest: &str,
    found: &mut bool,
    writer: &mut W,
) -> io::Result<()>
{
    let finding = match c {
        '\r' if !begins_feed(rest) => odd("bare-return", "CR that no LF follows", "\r", place),
        '\n' if ends.is_other() => odd(
            "mixed-line-ends",
            "a line that ends unlike those before it",
            "\n",
            place,
        ),
        _ => return Ok(()),
    };
    *found = true;
    write_line(form, path, &finding, writer)
}

/// Returns the finding for something odd at this place. It has no line of the source.
pub fn odd<'a>(
    name: &'static str,
    says: &'static str,
    here: &'a str,
    place: TextPosition,
) -> Finding<'a>
{
    Finding {
        name,
        says,
        place,
        front: "",
        here,
        rest: "",
    }
}

/// Whether the text begins with LF.
fn begins_feed(text: &str) -> bool
{
    match text.chars().next() {
        Some(c) => c == '\n',
        None => false,
    }
}

impl LineEnds {
    /// Returns what is known after the character.
    fn after(self, c: char) -> LineEnds
    {
        LineEnds {
            style: if c == '\n' {
                self.joint_style()
            } else {
                self.style
            },
            after_return: c == '\r',
        }
    }

    /// Returns how lines end once LF is read here.
    fn joint_style(self) -> Style
    {
        match self.style {
            Style::Unknown if self.after_return => Style::Return,
            Style::Unknown => Style::Feed,
            style => if self.is_other() { Style::Mixed } else { style },
        }
    }

    /// Whether a line that ends with LF here ends differently from the lines before it. It is `false` if those already
    /// differ.
    fn is_other(self) -> bool
    {
        match self.style {
            Style::Feed => self.after_return,
            Style::Return => !self.after_return,
            _ => false,
        }
    }
}
