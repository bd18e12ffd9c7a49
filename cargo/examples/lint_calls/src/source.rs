//! Texts that were read, and the places in them.

use proved_tokens::check::explain;
use proved_tokens::error::Fault;
use proved_tokens::items::parse_file;
use proved_tokens::text::{pieces, PieceKind};
use proved_tokens::{SourceMap, Span, TokenStream, TokenTree};
use std::fmt::Display;
use std::ops::Range;

/// What a column counts.
#[derive(Clone, Copy, Debug, PartialEq, Eq)]
pub enum Columns {
    /// Each character is one column.
    Characters,
    /// A character outside of the Basic Multilingual Plane is two columns, as in most editors.
    Utf16,
}

/// A text with its tokens, which are the items of a file.
pub struct Source<'a> {
    /// The tokens of the text.
    pub stream: TokenStream,
    file: &'a str,
    text: &'a str,
    columns: Columns,
    /// The byte offsets at which lines begin. The first line begins after the byte order mark.
    line_starts: Vec<usize>,
    map: SourceMap,
}

impl<'a> Source<'a> {
    /// Reads a text, or returns the message that says where and why it does not parse.
    pub fn read(file: &'a str, text: &'a str, columns: Columns) -> Result<Source<'a>, String> {
        let first = text.len() - text.trim_start_matches('\u{feff}').len();
        let line_starts = std::iter::once(first).chain(text.match_indices('\n').map(|(at, _)| at + 1)).collect();
        let (stream, map) = (TokenStream::new(), SourceMap::new());
        let mut source = Source { stream, file, text, columns, line_starts, map };
        let code = without_script_line(text);
        source.stream = TokenStream::from_str(&code, &mut source.map).map_err(|error| match explain(&code) {
            Ok(Some(explained)) => source.error(explained.at.start, &explained.reason.message()),
            _ => format!("{file}: error: {error}"),
        })?;
        check_items(source.stream.trees()).map_err(|fault| source.fault_message(&fault))?;
        Ok(source)
    }

    /// Returns the bytes that a span of this text takes.
    pub fn byte_range(&mut self, span: Span) -> Range<usize> {
        span.byte_range(&mut self.map)
    }

    /// Returns `FILE:LINE:COLUMN` for a byte offset.
    pub fn place(&self, offset: usize) -> String {
        let line = self.line_starts.partition_point(|start| *start <= offset).max(1);
        let before = self.text.get(self.line_starts[line - 1]..offset).unwrap_or("");
        let column = match self.columns {
            Columns::Characters => before.chars().count(),
            Columns::Utf16 => before.encode_utf16().count(),
        };
        format!("{}:{line}:{}", self.file, column + 1)
    }

    /// Returns the message for trees that are no items. Where trees are missing, its place is the end of the last one.
    pub fn fault_message(&mut self, fault: &Fault) -> String {
        let last = self.stream.trees().last().map(TokenTree::span);
        let offset = match fault.span() {
            Some(span) => self.byte_range(span).start,
            None => last.map_or(0, |span| self.byte_range(span).end),
        };
        self.error(offset, fault)
    }

    fn error(&self, offset: usize, reason: &dyn Display) -> String {
        format!("{}: error: {reason}", self.place(offset))
    }
}

/// Checks that the trees are items, and so are those in the braces of modules, impls, traits and `extern` blocks.
fn check_items(trees: &[TokenTree]) -> Result<(), Fault> {
    let mut bodies = Vec::new();
    bodies.extend(parse_file(trees)?.items.flatten().filter_map(|item| item.body()));
    while let Some(body) = bodies.pop() {
        let file = parse_file(body.stream_ref().trees()).map_err(|fault| fault.within(body))?;
        bodies.extend(file.items.flatten().filter_map(|item| item.body()));
    }
    Ok(())
}

/// Returns the text with spaces in place of the bytes of its first line, if this is the `#!` line of a script.
fn without_script_line(text: &str) -> String {
    let code = text.strip_prefix('\u{feff}').unwrap_or(text);
    let Some(rest) = code.strip_prefix("#!") else { return text.to_string() };
    let next = pieces(rest).find(|placed| placed.piece.kind != PieceKind::Gap);
    if next.is_some_and(|placed| placed.piece.kind == PieceKind::Opener('[')) {
        return text.to_string();
    }
    let size = code.find('\n').unwrap_or(code.len());
    format!("{}{}{}", &text[..text.len() - code.len()], " ".repeat(size), &code[size..])
}
