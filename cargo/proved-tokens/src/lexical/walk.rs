// Made from crates/lexical/src/walk.rt by dev/erase: change that file, not this one.
//! Iterates over all pieces of a text.

use crate::lexical::gaps::split_white;
use crate::lexical::lexer::piece_at;
use crate::lexical::piece::Piece;

/// A piece of a text, with its byte offset.
#[derive(Clone, Copy, Debug, PartialEq, Eq)]
pub struct PlacedPiece<'a> {
    /// What kind of piece it is, and how many bytes and characters it has.
    pub piece: Piece<'a>,
    /// The text of the piece, a slice of the source.
    pub text: &'a str,
    /// How many bytes of the source come before it.
    pub byte_offset: usize,
}

/// A run of white characters and the piece after it, as [`PieceWalk::next_after_white`] returns them.
#[derive(Clone, Copy, Debug, PartialEq, Eq)]
pub struct Spaced<'a> {
    /// The white characters, ASCII and others. Each is a gap. It is empty if there are none.
    pub white: &'a str,
    /// The source after the white characters, up to its end. It begins with the piece, if there is one.
    pub rest: &'a str,
    /// The piece, which is no white character, or `None` if no piece begins there.
    pub piece: Option<PlacedPiece<'a>>,
}

/// The pieces of a text that are left. [`pieces`] makes one.
pub struct PieceWalk<'a> {
    rest: &'a str,
    // How many bytes of the text come before the rest, and whether the rest is the whole text.
    byte_offset: usize,
    at_front: bool,
    // The rest is valid UTF-8, and the count of bytes cannot overflow.
}

/// Returns a walk over all pieces of a text in order, gaps and comments too. [`PieceWalk::next_piece`] then returns
/// them one by one. It allocates no memory.
///
/// For `a /**/+` the pieces are `a` at byte 0, a gap at 1, the gap `/**/` at 2 and the mark `+` at 6.
///
/// # Contract
///
/// - `ensures rest`: <code>result.rest.now ≡ text.now</code>
/// - `ensures byte_offset`: <code>result.byte_offset ≡ 0</code>
/// - `ensures front`: <code>result.at_front ≡ [true]</code>
///
/// [true]: crate::contracts#std.true
pub fn pieces(text: &str) -> PieceWalk<'_>
{
    // The contract of `iter` bounds how many bytes a text has.
    let _bytes = text.as_bytes().iter();
    PieceWalk {
        rest: text,
        byte_offset: 0,
        at_front: true,
    }
}

impl<'a> PieceWalk<'a> {
    /// Returns the piece at the start of the rest, and moves past it.
    ///
    /// It returns `None` at the end of the text, and where no piece begins, as [`piece_at`](crate::lexical::piece_at)
    /// says. Then it changes nothing. Otherwise the text of the piece and the new rest, joined, are the old rest. For
    /// `+ "a` it returns the mark and the gap, and then `None` with the rest `"a`.
    ///
    /// # Contract
    ///
    /// - `ensures found`: <code>[IfSome] result (λ next. [IsNext] self.old next self.new)</code>
    /// - `ensures none`: <code>[IfNone] result ([HasNoPiece] self.old.at_front ([chars] self.old.rest.now))</code>
    /// - `ensures unchanged`: <code>[IfNone] result (self.new ≡ self.old)</code>
    ///
    /// [IfSome]: crate::contracts#std.IfSome
    /// [IsNext]: crate::contracts#lexical.Walk.IsNext
    /// [IfNone]: crate::contracts#std.IfNone
    /// [HasNoPiece]: crate::contracts#lexical.Piece.HasNoPiece
    /// [chars]: crate::contracts#std.chars
    #[cfg_attr(not(debug_assertions), inline(always))]
    pub fn next_piece(&mut self) -> Option<PlacedPiece<'a>>
    {
        // Inlined, the piece stays in registers in a caller's loop. A call would write it to memory and read it back.
        let piece = piece_at(self.rest, self.at_front)?;
        let next = PlacedPiece {
            piece,
            text: &self.rest[..piece.bytes],
            byte_offset: self.byte_offset,
        };
        *self = PieceWalk {
            rest: &self.rest[piece.bytes..],
            byte_offset: self.byte_offset + piece.bytes,
            at_front: false,
        };
        Some(next)
    }

    /// Returns the next piece that is no white character, with the run of white characters before it, and moves past
    /// both. [`next_piece`](PieceWalk::next_piece) would return each white character as a gap of its own.
    ///
    /// If no piece follows, it moves past the white characters only. `Spaced::rest` is then empty at the end of the
    /// text; otherwise no piece begins there. Comments are pieces, so it does not skip them. For two spaces, U+2028,
    /// `+` and an LF it returns the first three characters with the mark, at byte offset 5, and then the LF without a
    /// piece.
    ///
    /// # Contract
    ///
    /// - `ensures`: <code>[IsSpaced] self.old result self.new</code>
    ///
    /// [IsSpaced]: crate::contracts#lexical.Walk.IsSpaced
    #[cfg_attr(not(debug_assertions), inline(always))]
    pub fn next_after_white(&mut self) -> Spaced<'a>
    {
        let white = self.pass_white();
        Spaced {
            white,
            rest: self.rest,
            piece: self.next_piece(),
        }
    }

    /// Moves past the white characters at the start of the rest, and returns their text.
    #[cfg_attr(not(debug_assertions), inline(always))]
    fn pass_white(&mut self) -> &'a str
    {
        let (white, rest) = split_white(self.rest);
        *self = PieceWalk {
            rest,
            byte_offset: self.byte_offset + white.len(),
            at_front: self.at_front & white.is_empty(),
        };
        white
    }

    /// Returns the text after the pieces that were returned so far. It is empty once they cover the whole text.
    ///
    /// # Contract
    ///
    /// - `ensures rest`: <code>result.now ≡ self.now.rest.now</code>
    /// - `ensures utf8`: <code>[IsUtf8] result.now</code>
    ///
    /// [IsUtf8]: crate::contracts#std.IsUtf8
    pub fn rest(&self) -> &'a str
    {
        self.rest
    }
}
