// Made from crates/pm_span/src/lookups.rt by dev/erase: change that file, not this one.
//! Look-ups of a span in the map that holds it.

use crate::shim::prelude::{GrowText, format};

use crate::pm_span::location::LineColumn;
use crate::pm_span::source_map::SourceMap;
use crate::pm_span::spans::Span;
use crate::shim::alloc::AllocError;
use crate::shim::ops::Range;

impl Span {
    /// Returns the line and column where the span begins (`line`, `column`). The map must hold the span.
    ///
    /// Lines are counted from 1, and only a line feed (LF) ends a line. Columns are counted in characters, from 0.
    /// In the text `aaa` LF `bbb` at 1..8, the span 6..8 starts at line 2, column 1.
    ///
    /// # Contract
    ///
    /// - `requires`: <code>[Holds] map.now self</code>
    /// - `ensures`: <code>[StartsAt] map.now self result</code>
    ///
    /// [Holds]: crate::contracts#pm_span.Files.Holds
    /// [StartsAt]: crate::contracts#pm_span.Lookup.StartsAt
    pub fn start(self, map: &SourceMap) -> LineColumn
    {
        let (lo, _) = self.bounds();
        map.line_column(lo)
    }

    /// Returns the line and column where the span ends, after its last character (`line`, `column`). The map must
    /// hold the span.
    ///
    /// In the text `aaa` LF `bbb` at 1..8, the span 2..4 ends at line 1, column 3.
    ///
    /// # Contract
    ///
    /// - `requires`: <code>[Holds] map.now self</code>
    /// - `ensures`: <code>[EndsAt] map.now self result</code>
    ///
    /// [Holds]: crate::contracts#pm_span.Files.Holds
    /// [EndsAt]: crate::contracts#pm_span.Lookup.EndsAt
    pub fn end(self, map: &SourceMap) -> LineColumn
    {
        let (_, hi) = self.bounds();
        map.line_column(hi)
    }

    /// Returns the name of the file that has the span (`file-name`). The map must hold the span.
    ///
    /// The name is `<unspecified>` for the span 0..0, and `<parsed string 2>` for a span in the second text. Out of
    /// memory is the only error.
    ///
    /// # Contract
    ///
    /// - `requires`: <code>[Holds] map.now self</code>
    /// - `ensures ok`: <code>[IfOk] result (λ name. [HasName] map.now self ([chars] ([string_bytes] name)))</code>
    ///
    /// [Holds]: crate::contracts#pm_span.Files.Holds
    /// [IfOk]: crate::contracts#std.IfOk
    /// [HasName]: crate::contracts#pm_span.Lookup.HasName
    /// [chars]: crate::contracts#std.chars
    /// [string_bytes]: crate::contracts#std.string_bytes
    pub fn file(self, map: &SourceMap) -> Result<String, AllocError>
    {
        let (lo, _) = self.bounds();
        let (number, _) = map.file_of(lo);
        if number == 0 {
            String::from_str_fallibly("<unspecified>")
        } else {
            format!("<parsed string {number}>")
        }
    }

    /// Returns the range of bytes that the span takes in the text of its file (`byte-offset`). The map must hold
    /// the span.
    ///
    /// Bytes are counted from the start of the file; the span 0..0 has the bytes 0..0. In the text `é a` at 1..4,
    /// the span 3..4 takes the bytes 3..4. The map does not change, and no memory is allocated.
    ///
    /// # Contract
    ///
    /// - `requires`: <code>[Holds] map.old self</code>
    /// - `ensures value`: <code>[HasBytes] map.old self result</code>
    /// - `ensures kept`: <code>map.new ≡ map.old</code>
    ///
    /// [Holds]: crate::contracts#pm_span.Files.Holds
    /// [HasBytes]: crate::contracts#pm_span.Lookup.HasBytes
    pub fn byte_range(self, map: &mut SourceMap) -> Range<usize>
    {
        map.byte_range(self)
    }

    /// Returns a copy of the span's text (`source-text`), or `None` for the span 0..0. The map must hold the span.
    ///
    /// [`source_str`](Span::source_str) borrows the text instead. Out of memory is the only error. The map never
    /// changes.
    ///
    /// # Contract
    ///
    /// - `requires`: <code>[Holds] map.old self</code>
    /// - `ensures found`: <code>[IfOk] result (λ source. [MatchOption] source (self ≡ [nowhere]) (λ \_. self ≢
    ///   [nowhere]))</code>
    /// - `ensures value`: <code>[IfOk] result (λ source. [IfSome] source (λ text. [HasText] map.old self ([chars]
    ///   ([string_bytes] text))))</code>
    /// - `ensures text`: <code>[IfOk] result (λ source. [IfSome] source (λ text. [IsTextOf] map.old self ([chars]
    ///   ([string_bytes] text))))</code>
    /// - `ensures nowhere`: <code>self ≡ [nowhere] → result ≡ [Ok] [None]</code>
    /// - `ensures kept`: <code>map.new ≡ map.old</code>
    ///
    /// [Holds]: crate::contracts#pm_span.Files.Holds
    /// [IfOk]: crate::contracts#std.IfOk
    /// [MatchOption]: crate::contracts#std.MatchOption
    /// [nowhere]: crate::contracts#pm_span.Extent.nowhere
    /// [IfSome]: crate::contracts#std.IfSome
    /// [HasText]: crate::contracts#pm_span.Lookup.HasText
    /// [chars]: crate::contracts#std.chars
    /// [string_bytes]: crate::contracts#std.string_bytes
    /// [IsTextOf]: crate::contracts#pm_span.Lookup.IsTextOf
    /// [Ok]: crate::contracts#std.Ok
    /// [None]: crate::contracts#std.None
    pub fn source_text(self, map: &mut SourceMap) -> Result<Option<String>, AllocError>
    {
        match self.source_str(map) {
            None => Ok(None),
            Some(text) => Ok(Some(String::from_str_fallibly(text)?)),
        }
    }

    /// Borrows the span's text from the map (`source-text`), or returns `None` for the span 0..0. The map must hold
    /// the span.
    ///
    /// Nothing is copied. In the text `aaa` LF `bbb` at 1..8, the span 6..8 has the text `bb`.
    ///
    /// # Contract
    ///
    /// - `requires`: <code>[Holds] map.now self</code>
    /// - `ensures found`: <code>[MatchOption] result (self ≡ [nowhere]) (λ \_. self ≢ [nowhere])</code>
    /// - `ensures value`: <code>[IfSome] result (λ text. [HasText] map.now self ([chars] text.now))</code>
    /// - `ensures text`: <code>[IfSome] result (λ text. [IsTextOf] map.now self ([chars] text.now))</code>
    ///
    /// [Holds]: crate::contracts#pm_span.Files.Holds
    /// [MatchOption]: crate::contracts#std.MatchOption
    /// [nowhere]: crate::contracts#pm_span.Extent.nowhere
    /// [IfSome]: crate::contracts#std.IfSome
    /// [HasText]: crate::contracts#pm_span.Lookup.HasText
    /// [chars]: crate::contracts#std.chars
    /// [IsTextOf]: crate::contracts#pm_span.Lookup.IsTextOf
    pub fn source_str(self, map: &SourceMap) -> Option<&str>
    {
        let (lo, hi) = self.bounds();
        let (_, file) = map.file_of(lo);
        let file = file?;
        Some(file.text_between(lo - file.lo(), hi - file.lo()))
    }

    /// Returns the smallest span that contains both spans (`join`), or `None` if they are not in one file. The map
    /// must hold this span.
    ///
    /// In a map with `aaa` LF `bbb` at 1..8 and `ccc` at 9..12, the spans 5..8 and 1..4 join to 1..8. Neither joins
    /// with 9..12.
    ///
    /// # Contract
    ///
    /// - `requires`: <code>[Holds] map.now self</code>
    /// - `ensures found`: <code>[SomeIff] result ([AreInOneFile] map.now self other) ([covering_span] self
    ///   other)</code>
    /// - `ensures held`: <code>[IfSome] result (λ span. [Holds] map.now span)</code>
    ///
    /// [Holds]: crate::contracts#pm_span.Files.Holds
    /// [SomeIff]: crate::contracts#std.SomeIff
    /// [AreInOneFile]: crate::contracts#pm_span.Lookup.AreInOneFile
    /// [covering_span]: crate::contracts#pm_span.Lookup.covering_span
    /// [IfSome]: crate::contracts#std.IfSome
    pub fn join(self, other: Span, map: &SourceMap) -> Option<Span>
    {
        let (lo, hi) = self.bounds();
        let (other_lo, other_hi) = other.bounds();
        let joined = Span::new(lo.min(other_lo), hi.max(other_hi));
        if map.holds(joined) {
            Some(joined)
        } else {
            None
        }
    }
}
