// Made from crates/pm_stream/src/reading.rt by dev/erase: change that file, not this one.
//! The one loop over the pieces of a text. Delimiters are matched here, and nowhere else.
//!
//! [`read`] passes the tokens of a text, in order, to a [`TokenSink`], which builds trees or something else of them.

use crate::shim::prelude::Grow;

use crate::lexical::{Piece, PieceKind, past_white, piece_at};
use crate::pm_span::Span;
use crate::pm_span::parts::span_of;
use crate::pm_token::parts::fault;
use crate::pm_token::{Delimiter, ParseError};
use crate::shim::alloc::AllocError;

/// A piece of a text, with its position.
#[derive(Clone, Copy)]
pub struct Lexed<'t> {
    /// What kind of piece it is, and its size in bytes and in characters.
    pub piece: Piece<'t>,
    /// The text from the start of the piece to the end of the source.
    pub text: &'t str,
    /// The position of the piece, in characters: the position of the source plus the number of characters before the
    /// piece.
    pub at: u32,
}

impl<'t> Lexed<'t> {
    /// Returns the text of the piece.
    ///
    /// # Contract
    ///
    /// - `requires`: <code>[IsLexed] self</code>
    /// - `ensures`: <code>(is : [IsLexed] self.entry) → [chars] result.now ≡ is.found.front</code>
    ///
    /// [IsLexed]: crate::contracts#pm_stream.Taken.IsLexed
    /// [chars]: crate::contracts#std.chars
    #[cfg_attr(not(debug_assertions), inline(always))]
    pub fn own_text(self) -> &'t str
    {
        &self.text[..self.piece.bytes]
    }

    /// Returns the span of the piece.
    ///
    /// # Contract
    ///
    /// - `requires`: <code>[IsLexed] self</code>
    /// - `ensures`: <code>(is : [IsLexed] self.entry) → result ≡ record { lo = self.entry.at; hi = self.entry.at +
    ///   [length] is.found.front }</code>
    ///
    /// [IsLexed]: crate::contracts#pm_stream.Taken.IsLexed
    /// [length]: crate::contracts#std.length
    #[cfg_attr(not(debug_assertions), inline(always))]
    pub fn span(self) -> Span
    {
        span_of(self.at, self.at + self.piece.chars as u32)
    }
}

/// Receives the tokens of a text from [`read`], in reading order.
///
/// Each call gets the piece that the token was read from. The text after the piece is `text[piece.bytes..]`, and its
/// position is `at + piece.chars`.
///
/// `opens` gives an open group's delimiter and position. `took` relates a sink to what was read: it holds before each
/// call, and the call preserves it.
pub trait TokenSink {
    /// What the sink keeps of a group until its closer is read.
    type Opened;

    // The group's delimiter, and the position of its opener.

    // How the sink relates to what was read.

    /// Returns the delimiter of an open group, and the position of its opener.
    ///
    /// # Contract
    ///
    /// - `ensures`: <code>result ≡ opens group.now</code>
    fn opener(group: &Self::Opened) -> (Delimiter, u32);

    /// Takes a punctuation mark.
    ///
    /// # Contract
    ///
    /// - `requires`: <code>[CanTake] took self.old lexed (kinds.Mark joint mark)</code>
    /// - `ensures`: <code>[OnOk] result ([HasTaken] took self.old self.new lexed.entry (kinds.Mark joint
    ///   mark))</code>
    ///
    /// [CanTake]: crate::contracts#pm_stream.Taken.CanTake
    /// [OnOk]: crate::contracts#std.OnOk
    /// [HasTaken]: crate::contracts#pm_stream.Taken.HasTaken
    fn mark(&mut self, lexed: Lexed<'_>, joint: bool, mark: char) -> Result<(), AllocError>;

    /// Takes an identifier, or a lifetime's name after the mark `'`. `name` is without the `r#` of a raw identifier,
    /// which the text of `lexed` includes.
    ///
    /// # Contract
    ///
    /// - `requires`: <code>[CanTake] took self.old lexed (kinds.Name raw name)</code>
    /// - `ensures`: <code>[OnOk] result ([HasTaken] took self.old self.new lexed.entry (kinds.Name raw
    ///   name.entry))</code>
    ///
    /// [CanTake]: crate::contracts#pm_stream.Taken.CanTake
    /// [OnOk]: crate::contracts#std.OnOk
    /// [HasTaken]: crate::contracts#pm_stream.Taken.HasTaken
    fn name(&mut self, lexed: Lexed<'_>, raw: bool, name: &str) -> Result<(), AllocError>;

    /// Takes a literal, whose text is the text of the piece.
    ///
    /// # Contract
    ///
    /// - `requires`: <code>[CanTake] took self.old lexed kinds.Literal</code>
    /// - `ensures`: <code>[OnOk] result ([HasTaken] took self.old self.new lexed.entry kinds.Literal)</code>
    ///
    /// [CanTake]: crate::contracts#pm_stream.Taken.CanTake
    /// [OnOk]: crate::contracts#std.OnOk
    /// [HasTaken]: crate::contracts#pm_stream.Taken.HasTaken
    fn literal(&mut self, lexed: Lexed<'_>) -> Result<(), AllocError>;

    /// Takes a doc comment, instead of all the tokens that it expands to. `doc_body` is its text without the comment's
    /// marks.
    ///
    /// # Contract
    ///
    /// - `requires`: <code>[CanTake] took self.old lexed (kinds.Doc inner doc_body)</code>
    /// - `ensures`: <code>[OnOk] result ([HasTaken] took self.old self.new lexed.entry (kinds.Doc inner
    ///   doc_body.entry))</code>
    ///
    /// [CanTake]: crate::contracts#pm_stream.Taken.CanTake
    /// [OnOk]: crate::contracts#std.OnOk
    /// [HasTaken]: crate::contracts#pm_stream.Taken.HasTaken
    fn doc(&mut self, lexed: Lexed<'_>, inner: bool, doc_body: &str) -> Result<(), AllocError>;

    /// Takes a piece that is no token: the front mark, a comment that is no doc comment, or a white character. ASCII
    /// white characters right after a piece are passed to [`white`](TokenSink::white) instead.
    ///
    /// # Contract
    ///
    /// - `requires`: <code>[CanSkip] took self.old lexed</code>
    /// - `ensures`: <code>[HasTaken] took self.old self.new lexed.entry kinds.Gap</code>
    ///
    /// [CanSkip]: crate::contracts#pm_stream.Taken.CanSkip
    /// [HasTaken]: crate::contracts#pm_stream.Taken.HasTaken
    fn gap(&mut self, lexed: Lexed<'_>);

    /// Takes the ASCII white characters right after a piece: the first `size` characters of `text`, where `size` may be
    /// 0. It is called after each piece's call. `text` is all of the source after that piece.
    ///
    /// # Contract
    ///
    /// - `requires`: <code>[CanPass] took self.old ([chars] text.now) size</code>
    /// - `ensures`: <code>[HasPassed] took self.old self.new ([chars] text.now) size</code>
    ///
    /// [CanPass]: crate::contracts#pm_stream.Taken.CanPass
    /// [chars]: crate::contracts#std.chars
    /// [HasPassed]: crate::contracts#pm_stream.Taken.HasPassed
    fn white(&mut self, text: &str, size: usize);

    /// Takes an opener. The value that it returns is passed to `close` with the group's closer.
    ///
    /// # Contract
    ///
    /// - `requires`: <code>[CanOpen] took self.old lexed delimiter</code>
    /// - `ensures`: <code>[IfOk] result ([HasOpened] opens took self.old self.new lexed.entry delimiter)</code>
    ///
    /// [CanOpen]: crate::contracts#pm_stream.Taken.CanOpen
    /// [IfOk]: crate::contracts#std.IfOk
    /// [HasOpened]: crate::contracts#pm_stream.Taken.HasOpened
    fn open(&mut self, lexed: Lexed<'_>, delimiter: Delimiter) -> Result<Self::Opened, AllocError>;

    /// Takes the closer of the innermost open group. A closer that does not match that group is a fault, and is not
    /// passed to the sink.
    ///
    /// # Contract
    ///
    /// - `requires`: <code>[CanClose] opens took self.old lexed delimiter group</code>
    /// - `ensures`: <code>[OnOk] result ([HasClosed] opens took self.old self.new lexed.entry delimiter
    ///   group)</code>
    ///
    /// [CanClose]: crate::contracts#pm_stream.Taken.CanClose
    /// [OnOk]: crate::contracts#std.OnOk
    /// [HasClosed]: crate::contracts#pm_stream.Taken.HasClosed
    fn close(
        &mut self,
        lexed: Lexed<'_>,
        delimiter: Delimiter,
        group: Self::Opened,
    ) -> Result<(), AllocError>;
}

/// Where reading stopped, and which groups were open there.
pub struct Ending<'t, T> {
    /// The text that was not read, which is empty if all was read. Otherwise it begins with the stray closer, or no
    /// piece begins there.
    pub rest: &'t str,
    /// The position where the rest begins.
    pub at: u32,
    /// Whether the rest is the whole text.
    pub first: bool,
    /// The groups that were open, the innermost last.
    pub opened: Vec<T>,
    /// The closer at which reading stopped, if that closer doesn't close the innermost open group.
    pub stray: Option<Piece<'t>>,
}

/// Passes the tokens of a text to the sink, as far as the text can be read.
///
/// The text begins at the position `base`. Reading stops at the end of the text, where no piece begins, or before a
/// closer that doesn't close the innermost open group.
///
/// The call fails if memory runs out, in the sink or for the list of open groups.
///
/// # Contract
///
/// - `requires room`: <code>base + [length] ([chars] text.now) &lt; 2 ^ 32</code>
/// - `requires starts`: <code>S.took sink.old ([nothing] base ([chars] text.now))</code>
/// - `ensures reads`: <code>[IfOk] result (λ ending. [ReadsTo] S.opens S.took base ([chars] text.now) ([chars]
///   ending.rest.now) ending.at ending.first sink.new ending.opened.items)</code>
/// - `ensures stops`: <code>[IfOk] result (λ ending. [MatchOption] ending.stray ([HasNoPiece] ending.first
///   ([chars] ending.rest.now)) (λ piece. [IsPieceAt] ending.first ([chars] ending.rest.now) piece × ((waiting
///   : [List] [Opened]) → [map] S.opens ([reverse] ending.opened.items) ≡ [openers_of] waiting → [IsStray]
///   piece.kind waiting)))</code>
/// - `ensures left`: <code>[IfOk] result (λ ending. ending.at + [length] ([chars] ending.rest.now) ≡ base +
///   [length] ([chars] text.now))</code>
///
/// [length]: crate::contracts#std.length
/// [chars]: crate::contracts#std.chars
/// [nothing]: crate::contracts#pm_stream.Taken.nothing
/// [IfOk]: crate::contracts#std.IfOk
/// [ReadsTo]: crate::contracts#pm_stream.Reading.ReadsTo
/// [MatchOption]: crate::contracts#std.MatchOption
/// [HasNoPiece]: crate::contracts#lexical.Piece.HasNoPiece
/// [IsPieceAt]: crate::contracts#lexical.Found.IsPieceAt
/// [List]: crate::contracts#std.List
/// [Opened]: crate::contracts#pm_stream.OpenGroups.Opened
/// [map]: crate::contracts#std.map
/// [reverse]: crate::contracts#std.reverse
/// [openers_of]: crate::contracts#pm_stream.Reading.openers_of
/// [IsStray]: crate::contracts#pm_stream.Fault.IsStray
#[cfg_attr(not(debug_assertions), inline(always))]
pub fn walk<'t, S: TokenSink>(
    base: u32,
    text: &'t str,
    sink: &mut S,
) -> Result<Ending<'t, S::Opened>, AllocError>
{
    let mut opened: Vec<S::Opened> = Vec::new();
    let mut rest = text;
    let mut at = base;
    // Comparing lengths avoids a flag for the first piece, which would take a register in each loop that inlines this
    // one.
    while let Some(piece) = piece_at(rest, rest.len() == text.len()) {
        let lexed = Lexed {
            piece,
            text: rest,
            at,
        };
        if !take(sink, &mut opened, lexed)? {
            return Ok(Ending {
                rest,
                at,
                first: rest.len() == text.len(),
                opened,
                stray: Some(piece),
            });
        }
        let tail = &rest[piece.bytes..];
        // White characters are gaps. Those of ASCII are skipped all at once.
        let (after, white) = past_white(tail);
        sink.white(tail, white);
        rest = after;
        at += (piece.chars + white) as u32;
    }
    Ok(Ending {
        rest,
        at,
        first: rest.len() == text.len(),
        opened,
        stray: None,
    })
}

/// Passes all tokens of a text that begins at the position `base` to the sink, or fails.
///
/// `Lex` has the position of the fault (`fault`). `Memory` is returned if memory runs out, and `MapFull` never.
///
/// # Contract
///
/// - `requires room`: <code>base + [length] ([chars] text.now) &lt; 2 ^ 32</code>
/// - `requires starts`: <code>S.took sink.old ([nothing] base ([chars] text.now))</code>
/// - `ensures ok`: <code>[OnOk] result ([ReadsAll] S.took base ([chars] text.now) sink.new)</code>
/// - `ensures lex`: <code>[IfErr] result ([IsFault] base ([chars] text.now))</code>
///
/// [length]: crate::contracts#std.length
/// [chars]: crate::contracts#std.chars
/// [nothing]: crate::contracts#pm_stream.Taken.nothing
/// [OnOk]: crate::contracts#std.OnOk
/// [ReadsAll]: crate::contracts#pm_stream.Reading.ReadsAll
/// [IfErr]: crate::contracts#std.IfErr
/// [IsFault]: crate::contracts#pm_stream.Fault.IsFault
#[cfg_attr(not(debug_assertions), inline(always))]
pub fn read<S: TokenSink>(
    base: u32,
    text: &str,
    sink: &mut S,
) -> Result<(), ParseError>
{
    let ending = walk(base, text, sink)?;
    end::<S>(ending.opened, ending.rest, ending.at)
}

/// Passes the piece to the sink and returns `true`. For a closer that doesn't close the innermost open group, does
/// nothing and returns `false`.
#[cfg_attr(not(debug_assertions), inline(always))]
fn take<S: TokenSink>(
    sink: &mut S,
    opened: &mut Vec<S::Opened>,
    lexed: Lexed<'_>,
) -> Result<bool, AllocError>
{
    match lexed.piece.kind {
        PieceKind::Opener(c) => {
            let group = sink.open(lexed, delimiter(c))?;
            opened.push_fallibly(group)?;
        }
        PieceKind::Closer(c) => {
            let delimiter = delimiter(c);
            let Some(group) = innermost::<S>(opened, delimiter) else {
                return Ok(false);
            };
            sink.close(lexed, delimiter, group)?;
        }
        PieceKind::Doc { inner, text } => sink.doc(lexed, inner, text)?,
        PieceKind::Mark { joint, mark } => sink.mark(lexed, joint, mark)?,
        PieceKind::Name { raw, name } => sink.name(lexed, raw, name)?,
        PieceKind::Literal => sink.literal(lexed)?,
        PieceKind::FrontMark | PieceKind::Gap => sink.gap(lexed),
    }
    Ok(true)
}

/// Removes and returns the innermost open group, if it has this delimiter.
fn innermost<S: TokenSink>(opened: &mut Vec<S::Opened>, delimiter: Delimiter) -> Option<S::Opened>
{
    let (other, _) = S::opener(opened.last()?);
    if other != delimiter {
        return None;
    }
    opened.pop()
}

/// Returns `Ok` if all was read and no group is open. Otherwise the fault is where the rest begins, or, if all was
/// read, where the innermost open group begins.
#[inline(never)]
fn end<S: TokenSink>(mut opened: Vec<S::Opened>, rest: &str, at: u32) -> Result<(), ParseError>
{
    if !rest.is_empty() {
        return Err(fault_at(at));
    }
    let Some(group) = opened.pop() else {
        return Ok(());
    };
    let (_, lo) = S::opener(&group);
    Err(fault_at(lo))
}

/// Returns the delimiter whose opener or closer is `c`.
fn delimiter(c: char) -> Delimiter
{
    match c {
        '(' | ')' => Delimiter::Parenthesis,
        '{' | '}' => Delimiter::Brace,
        _ => Delimiter::Bracket,
    }
}

/// Returns the error for a fault at this position.
fn fault_at(position: u32) -> ParseError
{
    ParseError::Lex(fault(span_of(position, position)))
}
