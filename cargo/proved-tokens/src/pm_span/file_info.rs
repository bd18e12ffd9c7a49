// Made from crates/pm_span/src/file_info.rt by dev/erase: change that file, not this one.
//! One file of a source map.

use crate::shim::prelude::{Box, GrowText};

use crate::pm_span::byte_index::ByteIndex;
use crate::pm_span::line_index::LineIndex;
use crate::pm_span::location::LineColumn;
use crate::pm_span::text_lines::{Lines, find_lines};
use crate::shim::alloc::AllocError;
use crate::shim::fmt;
use crate::shim::ops::Range;

/// A file of a source map: its text, the positions that it takes, and where its lines begin.
pub(crate) struct FileInfo {
    text: FileText,
    /// The position before its first character.
    lo: u32,
    /// The position after its last character.
    hi: u32,
    lines: LineIndex,
}

/// The text of a file. In an ASCII text, each offset is the same in characters and in bytes.
enum FileText {
    Ascii(String),
    Wide(Box<ByteIndex>),
}

impl FileText {
    /// Copies a text that has `count` characters. Out of memory is the only error.
    fn new(text: &str, count: u32) -> Result<FileText, AllocError>
    {
        let copy = String::from_str_fallibly(text)?;
        if count as usize == text.len() {
            return Ok(FileText::Ascii(copy));
        }
        let index = ByteIndex::new(copy, count)?;
        Ok(FileText::Wide(Box::new(index)?))
    }
}

/// Shows the fields that distinguish files, but not those that only make look-ups fast.
impl fmt::Debug for FileInfo {
    fn fmt(&self, f: &mut core::fmt::Formatter<'_>) -> fmt::Result {
        let mut debug = f.debug_struct("FileInfo");
        debug.field("text", &self.text());
        debug.field("lo", &self.lo);
        debug.field("hi", &self.hi);
        debug.field("line_starts", self.lines.starts());
        debug.finish()
    }
}

impl FileInfo {
    /// Makes the file of this text, with its first character at the position `lo`. Out of memory is the only error.
    pub(crate) fn new(text: &str, lo: u32) -> Result<FileInfo, AllocError>
    {
        let Lines { starts, count } = find_lines(text)?;
        Ok(FileInfo {
            text: FileText::new(text, count)?,
            lo,
            hi: lo + count,
            lines: LineIndex::new(starts, count)?,
        })
    }

    /// Returns the position before the first character.
    pub(crate) fn lo(&self) -> u32
    {
        self.lo
    }

    /// Returns the position after the last character.
    pub(crate) fn hi(&self) -> u32
    {
        self.hi
    }

    /// Returns the text.
    fn text(&self) -> &str
    {
        match &self.text {
            FileText::Ascii(text) => text.as_str(),
            FileText::Wide(index) => index.as_str(),
        }
    }

    /// Returns the line and column at an offset of the text, in characters.
    pub(crate) fn line_column(&self, char_offset: u32) -> LineColumn
    {
        self.lines.line_column(char_offset)
    }

    /// Returns the byte offsets of two offsets of the text, in characters.
    #[cfg_attr(not(debug_assertions), inline(always))]
    pub(crate) fn byte_range(&self, start: u32, end: u32) -> Range<usize>
    {
        match &self.text {
            FileText::Ascii(_) => start as usize..end as usize,
            FileText::Wide(index) => index.byte_range(start, end),
        }
    }

    /// Returns the text between two of its offsets, in characters.
    pub(crate) fn text_between(&self, start: u32, end: u32) -> &str
    {
        let bytes = self.byte_range(start, end);
        &self.text()[bytes.start..bytes.end]
    }
}
