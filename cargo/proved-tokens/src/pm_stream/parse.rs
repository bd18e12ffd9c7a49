// Made from crates/pm_stream/src/parse.rt by dev/erase: change that file, not this one.
//! The parser: from the pieces of a text to its token trees.

use crate::shim::prelude::{Grow, GrowList};

use crate::pm_stream::doc::doc_group;
use crate::pm_stream::reading::{Lexed, TokenSink, read};
use crate::pm_stream::stream::{Group, TokenStream, TokenTree};
use crate::pm_span::parts::{add_file, fits, fits_new, span_of};
use crate::pm_span::{SourceMap, Span};
use crate::pm_token::parts::{ident, literal, punct};
use crate::pm_token::{Delimiter, ParseError, Spacing};
use crate::shim::alloc::AllocError;

/// How many trees a finished list may keep unused room for.
const FEW_TREES: usize = 8;

impl TokenStream {
    /// Parses a text, which becomes the next file of the map, and returns its token trees (`parses-to`). The stream is
    /// `built`.
    ///
    /// Spans count characters, from the position where the file begins. The map holds the span of each tree.
    ///
    /// For a fault (`fault`) the call returns `Lex` with an empty span. The fault is where no piece of the grammar
    /// begins, or before a closer that doesn't close the innermost open group. If the text has neither, the fault is
    /// before the last opener that no closer matches. Even then the text becomes a file of the map, so that the map can
    /// give the fault's line. `MapFull` is returned exactly if the text would end past the map's limit (`fits`), and
    /// `Memory` if memory runs out. Both leave the map as it was.
    ///
    /// In a new map `a += b` gives four trees, the first of which is the identifier `a` at 1..2. The fault of `(]` is
    /// 2..2, and that of `a ( b` is 3..3.
    ///
    /// # Contract
    ///
    /// - `ensures ok`: <code>[IfOk] result (λ stream. [ParsesTo] ([next_lo] map.old) ([chars] text.now)
    ///   stream)</code>
    /// - `ensures built`: <code>[IfOk] result [IsBuilt]</code>
    /// - `ensures spans`: <code>[IfOk] result ([HoldsAll] map.new)</code>
    /// - `ensures within`: <code>[IsTrue] ([was_read] result) → [Fits] map.old ([length] ([chars] text.now))</code>
    /// - `ensures fault`: <code>[ReportsFault] [IfLex] ([next_lo] map.old) ([chars] text.now) result</code>
    /// - `ensures held`: <code>[IfErr] result (λ error. [IfLex] error ([Holds] map.new))</code>
    /// - `ensures map_full`: <code>(result ≡ [Err] ParseError.MapFull) ↔ ([Fits] map.old ([length] ([chars]
    ///   text.now)) → ⊥)</code>
    /// - `ensures kept`: <code>map.new ≡ (if [was_read] result then [with_file] map.old ([chars] text.now) else
    ///   map.old)</code>
    ///
    /// [IfOk]: crate::contracts#std.IfOk
    /// [ParsesTo]: crate::contracts#pm_stream.Parsing.ParsesTo
    /// [next_lo]: crate::contracts#pm_span.Files.next_lo
    /// [chars]: crate::contracts#std.chars
    /// [IsBuilt]: crate::contracts#pm_stream.Forest.IsBuilt
    /// [HoldsAll]: crate::contracts#pm_stream.HeldSpans.HoldsAll
    /// [IsTrue]: crate::contracts#std.IsTrue
    /// [was_read]: crate::contracts#pm_token.Outcome.was_read
    /// [Fits]: crate::contracts#pm_span.Files.Fits
    /// [length]: crate::contracts#std.length
    /// [ReportsFault]: crate::contracts#pm_stream.Parsing.ReportsFault
    /// [IfLex]: crate::contracts#pm_token.Outcome.IfLex
    /// [IfErr]: crate::contracts#std.IfErr
    /// [Holds]: crate::contracts#pm_span.Files.Holds
    /// [Err]: crate::contracts#std.Err
    /// [with_file]: crate::contracts#pm_span.Files.with_file
    pub fn from_str(text: &str, map: &mut SourceMap) -> Result<TokenStream, ParseError>

        // The fault has one position, and the map holds it.
    {
        let Some(lo) = fits(map, text) else {
            return Err(ParseError::MapFull);
        };
        let parsed = parse(lo, text);
        if let Err(ParseError::Memory(_)) = &parsed {
            return parsed;
        }
        add_file(map, text)?;
        parsed
    }

    /// Parses a text that becomes no file of a map, and returns its token trees (`parses-to`). The stream is `built`.
    ///
    /// Results, errors and spans are those of [`from_str`](TokenStream::from_str) with a new map. But no map is
    /// guaranteed to hold the spans. The call does not copy the text and does not search for lines, so it is faster for
    /// programs that only print trees. To get the line of a fault, call `from_str`, which finds the fault at the same
    /// position.
    ///
    /// `a += b` gives four trees, the first of which is the identifier `a` at 1..2. The fault of `(]` is 2..2.
    ///
    /// # Contract
    ///
    /// - `ensures ok`: <code>[IfOk] result (λ stream. [ParsesTo] ([next_lo] [new_map]) ([chars] text.now)
    ///   stream)</code>
    /// - `ensures built`: <code>[IfOk] result [IsBuilt]</code>
    /// - `ensures fault`: <code>[ReportsFault] [IfLex] ([next_lo] [new_map]) ([chars] text.now) result</code>
    /// - `ensures map_full`: <code>(result ≡ [Err] ParseError.MapFull) ↔ ([Fits] [new_map] ([length] ([chars]
    ///   text.now)) → ⊥)</code>
    ///
    /// [IfOk]: crate::contracts#std.IfOk
    /// [ParsesTo]: crate::contracts#pm_stream.Parsing.ParsesTo
    /// [next_lo]: crate::contracts#pm_span.Files.next_lo
    /// [new_map]: crate::contracts#pm_span.Files.new_map
    /// [chars]: crate::contracts#std.chars
    /// [IsBuilt]: crate::contracts#pm_stream.Forest.IsBuilt
    /// [ReportsFault]: crate::contracts#pm_stream.Parsing.ReportsFault
    /// [IfLex]: crate::contracts#pm_token.Outcome.IfLex
    /// [Err]: crate::contracts#std.Err
    /// [Fits]: crate::contracts#pm_span.Files.Fits
    /// [length]: crate::contracts#std.length
    pub fn parse_unmapped(text: &str) -> Result<TokenStream, ParseError>
    {
        let Some(lo) = fits_new(text) else {
            return Err(ParseError::MapFull);
        };
        parse(lo, text)
    }
}

/// Parses a text that begins at the position `base`.
pub(crate) fn parse(base: u32, text: &str) -> Result<TokenStream, ParseError>
{
    let mut parser = Parser {
        trees: Vec::new(),
    };
    read(base, text, &mut parser)?;
    Ok(parser.finish()?)
}

/// A sink that builds trees.
struct Parser {
    /// The trees read so far: those outside all groups and those of each open group. The innermost group's trees are
    /// last.
    trees: Vec<TokenTree>,
}

/// A group whose closer was not read yet.
struct Frame {
    /// How many trees of the list come before the group's own.
    before: usize,
    /// Its delimiter.
    delimiter: Delimiter,
    /// The position of its opener.
    lo: u32,
}

impl TokenSink for Parser {
    type Opened = Frame;

    #[cfg_attr(not(debug_assertions), inline(always))]
    fn opener(frame: &Frame) -> (Delimiter, u32) {
        (frame.delimiter, frame.lo)
    }

    #[cfg_attr(not(debug_assertions), inline(always))]
    fn mark(&mut self, lexed: Lexed<'_>, joint: bool, mark: char) -> Result<(), AllocError> {
        self.push_mark(mark, joint, lexed.span())
    }

    #[cfg_attr(not(debug_assertions), inline(always))]
    fn name(&mut self, lexed: Lexed<'_>, raw: bool, name: &str) -> Result<(), AllocError> {
        let name = ident(name, raw, lexed.span())?;
        self.push(TokenTree::Ident(name))
    }

    #[cfg_attr(not(debug_assertions), inline(always))]
    fn literal(&mut self, lexed: Lexed<'_>) -> Result<(), AllocError> {
        self.push_literal(lexed.own_text(), lexed.span())
    }

    #[cfg_attr(not(debug_assertions), inline(always))]
    fn doc(&mut self, lexed: Lexed<'_>, inner: bool, doc_body: &str) -> Result<(), AllocError> {
        self.push_doc(inner, doc_body, lexed.span())
    }

    #[cfg_attr(not(debug_assertions), inline(always))]
    fn gap(&mut self, _lexed: Lexed<'_>) {}

    #[cfg_attr(not(debug_assertions), inline(always))]
    fn white(&mut self, _text: &str, _size: usize) {}

    #[cfg_attr(not(debug_assertions), inline(always))]
    fn open(&mut self, lexed: Lexed<'_>, delimiter: Delimiter) -> Result<Frame, AllocError> {
        Ok(Frame {
            before: self.trees.len(),
            delimiter,
            lo: lexed.at,
        })
    }

    #[cfg_attr(not(debug_assertions), inline(always))]
    fn close(
        &mut self,
        lexed: Lexed<'_>,
        delimiter: Delimiter,
        frame: Frame,
    ) -> Result<(), AllocError> {
        self.push_group(frame.before, delimiter, span_of(frame.lo, lexed.at + 1))
    }
}

impl Parser {
    /// Adds a tree that may be put into a stream.
    // Inlined so that the tree is built in the list itself.
    #[cfg_attr(not(debug_assertions), inline(always))]
    fn push(&mut self, tree: TokenTree) -> Result<(), AllocError>
    {
        // This call computes nothing. Its contract says that the tree is `built`.
        let _ = tree.span();
        self.trees.push_fallibly(tree)?;
        Ok(())
    }

    /// Adds a mark.
    fn push_mark(&mut self, mark: char, joint: bool, span: Span) -> Result<(), AllocError>
    {
        self.push(TokenTree::Punct(punct(mark, spacing(joint), span)))
    }

    /// Adds a literal with this text, by the rule `literal-token`.
    // Not inlined, like doc comments and closers: the loop is then faster for the other pieces, which are more
    // frequent.
    #[inline(never)]
    fn push_literal(&mut self, text: &str, span: Span) -> Result<(), AllocError>
    {
        let literal = literal(text, span)?;
        self.push(TokenTree::Literal(literal))
    }

    /// Adds the trees of a doc comment: the mark `#`, the mark `!` if it is inner, and the group of its text.
    #[inline(never)]
    fn push_doc(&mut self, inner: bool, text: &str, span: Span) -> Result<(), AllocError>
    {
        self.push_mark('#', false, span)?;
        if inner {
            self.push_mark('!', false, span)?;
        }
        let group = doc_group(text, span)?;
        self.push(TokenTree::Group(group))
    }

    /// Replaces the trees from index `first` on with one group that holds them.
    #[inline(never)]
    fn push_group(
        &mut self,
        first: usize,
        delimiter: Delimiter,
        span: Span,
    ) -> Result<(), AllocError>
    {
        let inside = self.trees.split_off_fallibly(first)?;
        let stream = TokenStream::from_vec(inside)?;
        let group = Group::from_parts(delimiter, stream, span);
        self.trees.push_fallibly(TokenTree::Group(group))?;
        Ok(())
    }

    /// Returns the stream of the trees. No group may be open.
    fn finish(self) -> Result<TokenStream, AllocError>
    {
        let Parser { mut trees } = self;
        // The list also held the trees of groups, so much of its room may be unused. If the smaller allocation fails,
        // the list stays as it is.
        if trees.capacity().saturating_sub(trees.len()) > FEW_TREES {
            trees.shrink_to_fit();
        }
        TokenStream::from_vec(trees)
    }
}

/// Returns the spacing of a mark.
fn spacing(joint: bool) -> Spacing
{
    if joint {
        Spacing::Joint
    } else {
        Spacing::Alone
    }
}
