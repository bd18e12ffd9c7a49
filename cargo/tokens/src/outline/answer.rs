// Made from crates/outline/src/answer.rt by dev/erase: change that file, not this one.
//! The lines that the program writes for a text.

use proved_tokens::shim::prelude::{Grow, GrowText};

use crate::outline::entries::{Entry, Stop, entries, first_of, last_of};
use crate::outline::levels::lines_in;
use crate::outline::lines::{Shown, line_of};
use crate::outline::names::one_line;
use crate::outline::options::Form;
use proved_tokens::declarations::Fault;
use crate::messages::Failure;
use proved_tokens::pm_span::Span;
use proved_tokens::pm_span::parts::{add_file, fits};
use proved_tokens::pm_token::Ident;
use proved_tokens::proc_macro2::{LineColumn, SourceMap, TokenStream};
use proved_tokens::shim::alloc::AllocError;
use proved_tokens::token_buffer::{BufferError, TokenBuffer};

/// An error: where a file has something that is no item.
#[derive(Clone, Copy)]
pub struct Unlisted {
    /// The line and the column of the error.
    pub start: LineColumn,
    /// The error in the trees.
    pub fault: Fault,
}

/// Returns the lines of the declarations in the text, in reading order. `path` is the path of the file.
///
/// If the text parses but its trees are no items, it returns `Unlisted`. Fails with `Fault` if the text does not parse,
/// with `MapFull` if it is too long, and with `Memory`.
pub fn lines_of(
    form: Form,
    path: &str,
    text: &str,
) -> Result<Result<Vec<String>, Unlisted>, Failure>
{
    let map = map_of(text)?;
    let buffer = match TokenBuffer::new(text) {
        Ok(buffer) => buffer,
        Err(BufferError::Parse(error)) => return Err(Failure::parse_failure(error, &map)),
        Err(BufferError::TooLong) => return lines_by_trees(form, path, text),
    _ => unreachable!("each case is above"),
};
    match lines_in(form, path, &map, buffer.begin())? {
        Ok(lines) => Ok(Ok(lines)),
        Err(stop) => Ok(Err(stop.at_position(&map))),
    }
}

/// A source map that has only this text.
fn map_of(text: &str) -> Result<SourceMap, Failure>
{
    let mut map = SourceMap::new();
    if fits(&map, text).is_none() {
        return Err(Failure::MapFull);
    }
    add_file(&mut map, text)?;
    Ok(map)
}

/// Does the same as `lines_of`, but builds all trees of the text, which has too many bytes or tokens for a buffer.
fn lines_by_trees(
    form: Form,
    path: &str,
    text: &str,
) -> Result<Result<Vec<String>, Unlisted>, Failure>
{
    let mut map = SourceMap::new();
    let stream = match TokenStream::from_str(text, &mut map) {
        Ok(stream) => stream,
        Err(error) => return Err(Failure::parse_failure(error, &map)),
    };
    match entries(stream.trees())? {
        Ok(entries) => Ok(Ok(all_lines(form, path, &map, entries.as_slice())?)),
        Err(stop) => Ok(Err(stop.at_position(&map))),
    }
}

/// The lines of these entries. The map has only their text.
fn all_lines(
    form: Form,
    path: &str,
    map: &SourceMap,
    entries: &[Entry<'_>],
) -> Result<Vec<String>, AllocError>
{
    let mut lines = Vec::new();
    for entry in entries {
        if let Some(line) = entry_line(form, path, map, entry)? {
            lines.push_fallibly(line)?;
        }
    }
    Ok(lines)
}

/// Returns the line of an entry. The map has only the entry's text.
pub fn entry_line(
    form: Form,
    path: &str,
    map: &SourceMap,
    entry: &Entry<'_>,
) -> Result<Option<String>, AllocError>
{
    let start = start_of(first_of(entry.header), map);
    match entry.name {
        Some(name) => {
            let name = spelling_of(name)?;
            line_of(form, path, entry.shown_line(name.as_str(), start))
        }
        None => {
            let header = one_line(header_of(entry, map))?;
            line_of(form, path, entry.shown_line(header.as_str(), start))
        }
    }
}

impl<'a> Entry<'a> {
    /// The entry as it is shown, with this name or header and this start.
    fn shown_line<'b>(&self, name: &'b str, start: LineColumn) -> Shown<'b>
    {
        Shown {
            depth: self.depth,
            kind: self.kind,
            named: self.name.is_some(),
            name,
            start,
        }
    }
}

/// The name as it is written, with `r#` if it is raw.
fn spelling_of(name: &Ident) -> Result<String, AllocError>
{
    let mut out = String::new();
    write!(out, "{name}")?;
    Ok(out)
}

/// The text of the entry's header, without the last tree if there are several.
fn header_of<'a>(entry: &Entry<'_>, map: &'a SourceMap) -> &'a str
{
    through(first_of(entry.header), last_of(entry.header), map)
}

/// The text from the start of one span to the end of the other.
fn through(from: Span, to: Span, map: &SourceMap) -> &str
{
    if !map.holds(from) {
        return "";
    }
    match from.join(to, map) {
        Some(span) => match span.source_str(map) {
            Some(text) => text,
            None => "",
        },
        None => "",
    }
}

/// The line and the column where the span begins, or those of the text's start if the span is not in the map.
fn start_of(span: Span, map: &SourceMap) -> LineColumn
{
    if map.holds(span) {
        span.start(map)
    } else {
        LineColumn { line: 1, column: 0 }
    }
}

impl Stop {
    /// The error with its line and column.
    fn at_position(self, map: &SourceMap) -> Unlisted {
        let fault = self.fault;
        let start = self.place(map);
        Unlisted { start, fault }
    }

    /// The line and the column of the error: at its tree, or after the last tree.
    fn place(self, map: &SourceMap) -> LineColumn {
        if let Some(span) = self.fault.span {
            return start_of(span, map);
        }
        match self.last {
            Some(span) => end_of(span, map),
            None => LineColumn { line: 1, column: 0 },
        }
    }
}

/// The line and the column where the span ends, or those of the text's start if the span is not in the map.
fn end_of(span: Span, map: &SourceMap) -> LineColumn {
    if map.holds(span) {
        span.end(map)
    } else {
        LineColumn { line: 1, column: 0 }
    }
}
