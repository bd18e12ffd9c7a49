// Made from crates/pm_stream/src/placing.rt by dev/erase: change that file, not this one.
//! Finds where each tree of a text begins and ends, without building trees.

use crate::shim::prelude::Grow;

use crate::pm_stream::reading::{Lexed, TokenSink, read};
use crate::pm_span::parts::fits_new;
use crate::pm_token::{Delimiter, ParseError};
use crate::shim::alloc::AllocError;

/// A line and a column of a text, as in [`LineColumn`](crate::pm_span::LineColumn), in half the memory.
///
/// If a text fits a new map, its lines and columns fit 32 bits.
#[derive(Clone, Copy, Debug, PartialEq, Eq)]
pub struct Place {
    /// The line, counted from 1.
    pub line: u32,
    /// The column in characters, counted from 0.
    pub column: u32,
}

/// Which of the four kinds of trees a tree is.
#[derive(Clone, Copy, Debug, PartialEq, Eq)]
pub enum TreeKind {
    /// A group of trees.
    Group,
    /// An identifier.
    Ident,
    /// A punctuation mark.
    Punct,
    /// A literal.
    Literal,
}

/// Where a tree begins and ends, and its kind.
#[derive(Clone, Copy, Debug, PartialEq, Eq)]
pub struct PlacedTree {
    /// Where it begins.
    pub start: Place,
    /// Where it ends.
    pub end: Place,
    /// Its kind.
    pub kind: TreeKind,
}

/// Returns where each tree of a text begins and ends, in reading order: each group before the trees inside it.
///
/// The result has the spans of `TokenStream::walk` over the stream that the text parses to, as lines and columns of a
/// new map. No tree and no map is built. Each tree takes 20 bytes, and the call first allocates room for one tree for
/// each four bytes of text. It also keeps a list of the open groups.
///
/// The errors are those of [`parse_unmapped`](crate::pm_stream::TokenStream::parse_unmapped). `Lex` has the position of
/// the fault (`fault`), in characters counted from 1. `MapFull` is returned exactly if the text does not fit a new map
/// (`fits`), and `Memory` if memory runs out.
///
/// `a (b)` gives an identifier from 1:0 to 1:1, a group from 1:2 to 1:5, and an identifier from 1:3 to 1:4. For `(]`
/// the fault is 2..2.
///
/// # Contract
///
/// - `ensures ok`: <code>[IfOk] result (λ trees. [ArePlaced] ([next_lo] [new_map]) ([chars] text.now)
///   trees.items)</code>
/// - `ensures fault`: <code>[ReportsFault] [IfLex] ([next_lo] [new_map]) ([chars] text.now) result</code>
/// - `ensures map_full`: <code>(result ≡ [Err] ParseError.MapFull) ↔ ([Fits] [new_map] ([length] ([chars]
///   text.now)) → ⊥)</code>
///
/// [IfOk]: crate::contracts#std.IfOk
/// [ArePlaced]: crate::contracts#pm_stream.Places.ArePlaced
/// [next_lo]: crate::contracts#pm_span.Files.next_lo
/// [new_map]: crate::contracts#pm_span.Files.new_map
/// [chars]: crate::contracts#std.chars
/// [ReportsFault]: crate::contracts#pm_stream.Parsing.ReportsFault
/// [IfLex]: crate::contracts#pm_token.Outcome.IfLex
/// [Err]: crate::contracts#std.Err
/// [Fits]: crate::contracts#pm_span.Files.Fits
/// [length]: crate::contracts#std.length
pub fn place_trees(text: &str) -> Result<Vec<PlacedTree>, ParseError>
{
    let Some(lo) = fits_new(text) else {
        return Err(ParseError::MapFull);
    };
    place_trees_at(lo, text)
}

/// Returns where each tree begins and ends in a text that begins at the position `base`.
fn place_trees_at(base: u32, text: &str) -> Result<Vec<PlacedTree>, ParseError>
{
    let mut placer = Placer {
        here: Place { line: 1, column: 0 },
        // In code, a tree has about five bytes, including the white characters after it.
        trees: Vec::with_capacity_fallibly(text.len() / 4)?,
    };
    read(base, text, &mut placer)?;
    Ok(placer.trees)
}

/// Returns the line and column after a text that begins at `start`.
fn past(start: Place, text: &str) -> Place
{
    let mut place = start;
    for c in text.chars() {
        place = past_char(place, c);
    }
    place
}

/// Returns the line and column after a character at `place`.
#[cfg_attr(not(debug_assertions), inline(always))]
fn past_char(place: Place, c: char) -> Place
{
    if c == '\n' {
        Place {
            line: place.line + 1,
            column: 0,
        }
    } else {
        Place {
            line: place.line,
            column: place.column + 1,
        }
    }
}

/// A sink that records where each tree begins and ends.
struct Placer {
    /// The line and column up to which the text was read.
    here: Place,
    /// The trees in reading order. As long as a group is open, its end equals its start.
    trees: Vec<PlacedTree>,
}

/// A group whose closer was not read yet.
struct OpenGroup {
    /// Its delimiter.
    delimiter: Delimiter,
    /// The position where its opener begins.
    lo: u32,
    /// The line and column of that position.
    start: Place,
    /// The index of the group in the list of trees.
    index: usize,
}

impl TokenSink for Placer {
    type Opened = OpenGroup;

    #[cfg_attr(not(debug_assertions), inline(always))]
    fn opener(group: &OpenGroup) -> (Delimiter, u32) {
        (group.delimiter, group.lo)
    }

    #[cfg_attr(not(debug_assertions), inline(always))]
    fn mark(&mut self, lexed: Lexed<'_>, _joint: bool, _mark: char) -> Result<(), AllocError> {
        self.push(self.along(lexed), TreeKind::Punct)
    }

    #[cfg_attr(not(debug_assertions), inline(always))]
    fn name(&mut self, lexed: Lexed<'_>, _raw: bool, _name: &str) -> Result<(), AllocError> {
        self.push(self.along(lexed), TreeKind::Ident)
    }

    #[cfg_attr(not(debug_assertions), inline(always))]
    fn literal(&mut self, lexed: Lexed<'_>) -> Result<(), AllocError> {
        self.push(self.past(lexed), TreeKind::Literal)
    }

    #[cfg_attr(not(debug_assertions), inline(always))]
    fn doc(&mut self, lexed: Lexed<'_>, inner: bool, _doc_body: &str) -> Result<(), AllocError> {
        self.push_doc(inner, self.past(lexed))
    }

    #[cfg_attr(not(debug_assertions), inline(always))]
    fn gap(&mut self, lexed: Lexed<'_>) {
        self.here = self.past(lexed);
    }

    #[cfg_attr(not(debug_assertions), inline(always))]
    fn white(&mut self, text: &str, size: usize) {
        self.here = past(self.here, &text[..size]);
    }

    #[cfg_attr(not(debug_assertions), inline(always))]
    fn open(&mut self, lexed: Lexed<'_>, delimiter: Delimiter) -> Result<OpenGroup, AllocError> {
        let start = self.here;
        let end = self.along(lexed);
        let index = self.trees.len();
        self.add(start, TreeKind::Group)?;
        self.here = end;
        Ok(OpenGroup {
            delimiter,
            lo: lexed.at,
            start,
            index,
        })
    }

    #[cfg_attr(not(debug_assertions), inline(always))]
    fn close(
        &mut self,
        lexed: Lexed<'_>,
        _delimiter: Delimiter,
        group: OpenGroup,
    ) -> Result<(), AllocError> {
        let end = self.along(lexed);
        self.trees[group.index] = PlacedTree {
            start: group.start,
            end,
            kind: TreeKind::Group,
        };
        self.here = end;
        Ok(())
    }
}

impl Placer {
    /// Returns the line and column after the piece, which must be on one line.
    #[cfg_attr(not(debug_assertions), inline(always))]
    fn along(&self, lexed: Lexed<'_>) -> Place
    {
        Place {
            line: self.here.line,
            column: self.here.column + lexed.piece.chars as u32,
        }
    }

    /// Returns the line and column after the piece.
    #[cfg_attr(not(debug_assertions), inline(always))]
    fn past(&self, lexed: Lexed<'_>) -> Place
    {
        past(self.here, lexed.own_text())
    }

    /// Adds a tree of this kind, which begins at `here` and ends at `end`. Moves `here` to `end`.
    #[cfg_attr(not(debug_assertions), inline(always))]
    fn push(&mut self, end: Place, kind: TreeKind) -> Result<(), AllocError>
    {
        self.add(end, kind)?;
        self.here = end;
        Ok(())
    }

    /// Adds the trees of a doc comment: the mark `#`, the mark `!` if it is inner, and the group of its text.
    #[inline(never)]
    fn push_doc(&mut self, inner: bool, end: Place) -> Result<(), AllocError>
    {
        self.add(end, TreeKind::Punct)?;
        if inner {
            self.add(end, TreeKind::Punct)?;
        }
        self.add(end, TreeKind::Group)?;
        self.add(end, TreeKind::Ident)?;
        self.add(end, TreeKind::Punct)?;
        self.push(end, TreeKind::Literal)
    }

    /// Adds a tree of this kind, which begins at `here` and ends at `end`. Leaves `here` as it is: more trees begin
    /// there.
    #[cfg_attr(not(debug_assertions), inline(always))]
    fn add(&mut self, end: Place, kind: TreeKind) -> Result<(), AllocError>
    {
        let start = self.here;
        self.trees.push_fallibly(PlacedTree { start, end, kind })?;
        Ok(())
    }
}
