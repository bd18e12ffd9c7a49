// Made from crates/pm_span/src/source_map.rt by dev/erase: change that file, not this one.
//! The map of the texts that were read.

use crate::shim::prelude::Grow;

use crate::pm_span::file_info::FileInfo;
use crate::pm_span::location::LineColumn;
use crate::pm_span::spans::Span;
use crate::pm_span::text::has_fewer_chars;
use crate::shim::alloc::AllocError;
use crate::shim::fmt;
use crate::shim::ops::Range;

/// The texts that were read, each as a file with positions of its own.
///
/// Positions count characters. File 0 is the empty text at 0..0 (`file-0`). Each later file begins one past the end
/// of the file before it (`next-position`), so no position is in two files. After the texts `ab` and `c`, the files
/// are at 0..0, 1..3 and 4..5.
pub struct SourceMap {
    /// The files from 1 on.
    files: Vec<FileInfo>,
    /// The positions that each file takes.
    places: Vec<FileRange>,
    /// The largest position that may be used.
    limit: u32,
}

/// The positions that a file takes.
#[derive(Clone, Copy)]
struct FileRange {
    /// The position before its first character.
    lo: u32,
    /// The position after its last character.
    hi: u32,
}

/// Returns how many of the files at these ascending positions begin at or before `position`.
fn count_begun(places: &[FileRange], position: u32) -> usize
{
    let Some((last, earlier)) = places.split_last() else {
        return 0;
    };
    // Look-ups are most frequent in the file that was just read.
    if last.lo <= position {
        return places.len();
    }
    earlier.partition_point(|place| place.lo <= position)
}

/// Shows the fields that distinguish maps, but not those that only make look-ups fast.
impl fmt::Debug for SourceMap {
    fn fmt(&self, f: &mut core::fmt::Formatter<'_>) -> fmt::Result {
        let mut debug = f.debug_struct("SourceMap");
        debug.field("files", &self.files);
        debug.field("limit", &self.limit);
        debug.finish()
    }
}

impl SourceMap {
    /// Makes a map that has only file 0, with positions up to 4294967295. This allocates nothing.
    ///
    /// # Contract
    ///
    /// - `ensures`: <code>result ≡ [new_map]</code>
    ///
    /// [new_map]: crate::contracts#pm_span.Files.new_map
    pub fn new() -> SourceMap
    {
        SourceMap::with_limit(u32::MAX)
    }

    /// Makes a map that has only file 0, with positions up to `limit`. This allocates nothing.
    ///
    /// A text doesn't fit (`fits`) if its file would end past the limit. With the limit 5, `abcd` is at 1..5, and
    /// after it not even the empty text fits.
    ///
    /// # Contract
    ///
    /// - `ensures`: <code>result ≡ record { texts = \[\]; limit = limit }</code>
    pub fn with_limit(limit: u32) -> SourceMap
    {
        SourceMap {
            files: Vec::new(),
            places: Vec::new(),
            limit,
        }
    }

    /// Removes all files but file 0, and keeps the limit.
    ///
    /// The next text begins at position 1 again. So the map may hold a span of a removed text, but only by chance.
    ///
    /// # Contract
    ///
    /// - `ensures`: <code>self.new ≡ record self.old { texts = \[\] }</code>
    pub fn invalidate(&mut self)
    {
        self.files.clear();
        self.places.clear();
    }

    /// Returns whether some file of the map has all the positions of the span (`holds`).
    ///
    /// A file also has the position at its end. With the one text `ab`, the map holds 0..0, 1..3 and 3..3, but
    /// neither 0..1 nor 3..4.
    ///
    /// # Contract
    ///
    /// - `ensures`: <code>[IsTrue] result ↔ [Holds] self.now span</code>
    ///
    /// [IsTrue]: crate::contracts#std.IsTrue
    /// [Holds]: crate::contracts#pm_span.Files.Holds
    pub fn holds(&self, span: Span) -> bool
    {
        let (lo, hi) = span.bounds();
        let number = count_begun(&self.places, lo);
        if number == 0 {
            hi == 0
        } else {
            hi <= self.places[number - 1].hi
        }
    }

    /// Returns the last file that begins at or before the position, with its number. File 0 is `None`.
    pub(crate) fn file_of(&self, position: u32) -> (usize, Option<&FileInfo>)
    {
        let number = count_begun(&self.places, position);
        if number == 0 {
            (number, None)
        } else {
            (number, Some(&self.files[number - 1]))
        }
    }

    /// Returns the position at the end of the last file.
    fn last_hi(&self) -> u32
    {
        match self.files.last() {
            None => 0,
            Some(file) => file.hi(),
        }
    }

    /// Returns the line and column at a position of the map.
    pub(crate) fn line_column(&self, position: u32) -> LineColumn
    {
        let (_, file) = self.file_of(position);
        match file {
            None => LineColumn { line: 1, column: 0 },
            Some(file) => file.line_column(position - file.lo()),
        }
    }

    /// Returns the range of bytes that a span of the map takes in its file.
    pub(crate) fn byte_range(&self, span: Span) -> Range<usize>
    {
        let (lo, hi) = span.bounds();
        let (_, file) = self.file_of(lo);
        match file {
            None => 0..0,
            Some(file) => file.byte_range(lo - file.lo(), hi - file.lo()),
        }
    }

    /// Returns the position at which the file of this text would begin, or `None` if it doesn't fit.
    pub(crate) fn fits(&self, text: &str) -> Option<u32>
    {
        let last = self.last_hi();
        if last < self.limit && has_fewer_chars(text, (self.limit - last) as usize) {
            Some(last + 1)
        } else {
            None
        }
    }

    /// Adds the text as the next file. If memory runs out, the map does not change.
    pub(crate) fn add_file(&mut self, text: &str) -> Result<(), AllocError>
    {
        let lo = self.last_hi() + 1;
        let file = FileInfo::new(text, lo)?;
        self.places.push_fallibly(FileRange { lo, hi: file.hi() })?;
        match self.files.push_fallibly(file) {
            Ok(()) => Ok(()),
            Err(_) => {
                let _ = self.places.pop();
                Err(AllocError::met())
            }
        }
    }
}
