// Made from crates/token_buffer/src/display.rt by dev/erase: change that file, not this one.
//! Prints the remaining trees of a cursor, without making trees of them.

use crate::token_buffer::cursor::{Cursor, LiteralText, Name};
use crate::token_buffer::part::{Part, part_of};
use crate::token_buffer::string::{write_one, write_string, write_text};
use crate::pm_token::Delimiter;
use crate::shim::fmt;

/// Prints the remaining trees as their stream would be printed (`printed`).
///
/// This allocates nothing, and the time is proportional to the text that is written. An error comes only from the
/// writer; some of the text may have been written then.
///
/// In `a+=(b)`, a cursor after the `a` prints `+= (b)`.
impl<'a> fmt::Display for Cursor<'a> {
    fn fmt<W: fmt::Write>(&self, f: &mut fmt::Formatter<W>) -> fmt::Result {
        let text = self.text;
        let mut entries = self.entries;
        let mut gap = false;
        while let Some((entry, after)) = entries.split_first() {
            let first = part_of(text, *entry);
            print_part(first, gap, f)?;
            gap = gap_after(first);
            entries = after;
        }
        Ok(())
    }
}

crate::shim::display!(Cursor<'a>);

/// Prints a part. If `gap` is set, a space is before it, unless the part is the end of a group.
fn print_part<W: fmt::Write>(part: Part<'_>, gap: bool, f: &mut fmt::Formatter<W>) -> fmt::Result
{
    print_space(gap_before(part, gap), f)?;
    match part {
        Part::Ident(name) => print_name(name, f),
        Part::Punct(mark, _) => write_one(mark, f),
        Part::Literal(LiteralText::Source(text)) => write_text(text, f),
        Part::Literal(LiteralText::Doc(text)) => write_string(text, f),
        Part::Open(delimiter) => f.write_str(opener(delimiter)),
        Part::Close(delimiter) => f.write_str(closer(delimiter)),
    }
}

/// Prints a space if `gap` is set.
fn print_space<W: fmt::Write>(gap: bool, f: &mut fmt::Formatter<W>) -> fmt::Result
{
    if gap { f.write_str(" ") } else { Ok(()) }
}

/// Prints an identifier.
fn print_name<W: fmt::Write>(name: Name<'_>, f: &mut fmt::Formatter<W>) -> fmt::Result
{
    if name.raw {
        f.write_str("r#")?;
        return write_text(name.text, f);
    }
    write_text(name.text, f)
}

/// Returns whether a space goes before the part, if `gap` tells whether one goes after the part before it.
fn gap_before(part: Part<'_>, gap: bool) -> bool
{
    match part {
        Part::Close(_) => false,
        _ => gap,
    }
}

/// Returns whether a space goes after the part.
fn gap_after(part: Part<'_>) -> bool
{
    match part {
        Part::Punct(_, joint) => !joint,
        Part::Open(delimiter) => delimiter == Delimiter::Brace,
        _ => true,
    }
}

/// Returns the text that a group begins with.
fn opener(delimiter: Delimiter) -> &'static str
{
    match delimiter {
        Delimiter::Parenthesis => "(",
        Delimiter::Brace => "{",
        Delimiter::Bracket => "[",
        Delimiter::None => "",
    }
}

/// Returns the text that a group ends with, with a space before a closing brace.
fn closer(delimiter: Delimiter) -> &'static str
{
    match delimiter {
        Delimiter::Parenthesis => ")",
        Delimiter::Brace => " }",
        Delimiter::Bracket => "]",
        Delimiter::None => "",
    }
}
