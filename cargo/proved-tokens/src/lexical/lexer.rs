// Made from crates/lexical/src/lexer.rt by dev/erase: change that file, not this one.
//! Finds the piece at the start of a text.

use crate::lexical::class::{PieceStart, byte_start, piece_start_of};
use crate::lexical::comments::comment;
use crate::lexical::cursor::TextCursor;
use crate::lexical::fast_path::quoted::{
    bare_character, character, escaped_string, letter_character, plain_string, string,
    wide_character,
};
use crate::lexical::fast_path::{
    Extent, byte_at, byte_literal, fast_literal, fast_piece, line_comment, lone_quote, long_number,
};
use crate::lexical::identifiers::{identifier, name};
use crate::lexical::literals::{literal, skip_quoted};
use crate::lexical::marks::{begins_comment, follows_quote, mark};
use crate::lexical::numbers::number;
use crate::lexical::piece::{Piece, PieceKind};
use crate::lexical::text::strip;
use crate::lexical::words::{count_few_plain, count_plain};

/// Makes a piece of a literal that was read, if one was: its kind, and the cursor after it.
#[cfg_attr(not(debug_assertions), inline(always))]
fn as_literal(end: Option<TextCursor<'_>>) -> Option<(PieceKind<'_>, TextCursor<'_>)>
{
    Some((PieceKind::Literal, end?))
}

/// Returns the kind of the piece at the cursor, and the cursor after it. The first character decides which rules to
/// try. `at_front` says whether the cursor is at byte offset 0 of a source.
#[cfg_attr(not(debug_assertions), inline(always))]
fn read_piece(at: TextCursor<'_>, at_front: bool) -> Option<(PieceKind<'_>, TextCursor<'_>)>
{
    let (first, after) = at.advance()?;
    match piece_start_of(first) {
        PieceStart::White => Some((PieceKind::Gap, after)),
        PieceStart::Letter => match identifier(at, first, after) {
            Some(name) => Some(name),
            None => as_literal(skip_quoted(at)),
        },
        PieceStart::Digit => as_literal(number(at)),
        PieceStart::Opener => match at.past("(/*ERROR*/)") {
            Some(end) => Some((PieceKind::Literal, end)),
            None => Some((PieceKind::Opener(first), after)),
        },
        PieceStart::Closer => Some((PieceKind::Closer(first), after)),
        PieceStart::Slash => {
            if begins_comment(at.rest) {
                return comment(at);
            }
            Some((mark(first, after.rest), after))
        }
        PieceStart::Quote => {
            if !follows_quote(after) {
                return as_literal(skip_quoted(at));
            }
            let kind = PieceKind::Mark {
                joint: true,
                mark: '\'',
            };
            Some((kind, after))
        }
        PieceStart::DoubleQuote => as_literal(skip_quoted(at)),
        PieceStart::FrontMark => {
            if !at_front {
                return None;
            }
            Some((PieceKind::FrontMark, after))
        }
        PieceStart::Mark => Some((mark(first, after.rest), after)),
        PieceStart::Other => None,
    }
}

/// Returns the piece of the grammar at the start of `text`, which is the rest of a source from some byte offset on.
/// `first` says whether that is byte offset 0.
///
/// It returns `None` at the end of the source, and where no piece begins, as at a string that is not closed. A closer
/// without an opener is a piece too. At most one piece begins at a byte offset, as
/// `one_piece` says. For `+=` it returns the mark `+`, which is Joint and has 1 byte and 1
/// character. For `/* /* */` it returns `None`, because one comment is still open at the end.
///
/// # Contract
///
/// - `ensures found`: <code>[IfSome] result (λ piece. [IsPieceAt] first ([chars] text.now) piece)</code>
/// - `ensures none`: <code>[IfNone] result ([HasNoPiece] first ([chars] text.now))</code>
///
/// [IfSome]: crate::contracts#std.IfSome
/// [IsPieceAt]: crate::contracts#lexical.Found.IsPieceAt
/// [chars]: crate::contracts#std.chars
/// [IfNone]: crate::contracts#std.IfNone
/// [HasNoPiece]: crate::contracts#lexical.Piece.HasNoPiece
#[cfg_attr(not(debug_assertions), inline(always))]
pub fn piece_at(text: &str, first: bool) -> Option<Piece<'_>>
{
    match fast_piece(text) {
        Some(piece) => Some(piece),
        None => other_piece(text, first),
    }
}

/// Returns the piece at the start of `text` if it is of a rarer kind. Each first byte has a function of its own.
#[cfg_attr(not(debug_assertions), inline(always))]
fn other_piece(text: &str, first: bool) -> Option<Piece<'_>>
{
    match byte_start(byte_at(text.as_bytes(), 0)) {
        PieceStart::Letter => letter_piece(text, first),
        PieceStart::Digit => digit_piece(text, first),
        PieceStart::Slash => slash_piece(text, first),
        PieceStart::Quote => quote_piece(text, first),
        PieceStart::DoubleQuote => string_piece(text, first),
        _ => piece_by_characters(text, first),
    }
}

/// Returns the piece of a literal that has this extent.
#[cfg_attr(not(debug_assertions), inline(always))]
fn literal_piece<'a>(extent: Extent) -> Piece<'a>
{
    Piece {
        kind: PieceKind::Literal,
        bytes: extent.bytes,
        chars: extent.chars,
    }
}

/// Returns the piece of a text that begins with a letter. Often it is a byte or a byte string.
#[inline(never)]
fn letter_piece(text: &str, first: bool) -> Option<Piece<'_>>
{
    match byte_literal(text) {
        Some(extent) => Some(literal_piece(extent)),
        None => piece_by_characters(text, first),
    }
}

/// Returns the piece of a text that begins with a digit.
#[inline(never)]
fn digit_piece(text: &str, first: bool) -> Option<Piece<'_>>
{
    match long_number(text) {
        Some(extent) => Some(literal_piece(extent)),
        None => piece_by_characters(text, first),
    }
}

/// Returns the piece of a text that begins with `/`. Often it is a line comment.
#[inline(never)]
fn slash_piece(text: &str, first: bool) -> Option<Piece<'_>>
{
    match line_comment(text) {
        Some(piece) => Some(piece),
        None => piece_by_characters(text, first),
    }
}

/// Returns the piece of a text that begins with `'`: often a character of one byte, or a lone quote.
///
/// Other characters have functions of their own, so that this one needs few registers.
#[inline(never)]
fn quote_piece(text: &str, first: bool) -> Option<Piece<'_>>
{
    let second = byte_at(text.as_bytes(), 1);
    if second == b'\\' {
        return match letter_character(text) {
            Some(extent) => Some(literal_piece(extent)),
            None => escaped_piece(text, first),
        };
    }
    if let Some(extent) = bare_character(text) {
        return Some(literal_piece(extent));
    }
    if !second.is_ascii() {
        return wide_piece(text, first);
    }
    match lone_quote(text) {
        Some(piece) => Some(piece),
        None => piece_by_characters(text, first),
    }
}

/// Returns the piece of a text that begins with `'` and a backslash.
#[inline(never)]
fn escaped_piece(text: &str, first: bool) -> Option<Piece<'_>>
{
    match character(text) {
        Some(extent) => Some(literal_piece(extent)),
        None => piece_by_characters(text, first),
    }
}

/// Returns the piece of a text that begins with `'` and a character past ASCII.
#[inline(never)]
fn wide_piece(text: &str, first: bool) -> Option<Piece<'_>>
{
    match wide_character(text) {
        Some(extent) => Some(literal_piece(extent)),
        None => piece_by_characters(text, first),
    }
}

/// Returns the piece of a text that begins with `"`. Often it is a string of a few ASCII characters.
///
/// Other strings have functions of their own, so that this one needs few registers.
#[inline(never)]
fn string_piece(text: &str, first: bool) -> Option<Piece<'_>>
{
    let Some(inside) = strip(text, "\"") else {
        return piece_by_characters(text, first);
    };
    let bytes = inside.as_bytes();
    let stretch = count_few_plain(bytes);
    if byte_at(bytes, stretch) == b'\\' {
        return escaped_string_piece(text, inside, stretch, first);
    }
    if let Some(extent) = plain_string(inside, stretch) {
        return Some(literal_piece(extent));
    }
    if stretch < 8 {
        return other_string_piece(text, first);
    }
    long_string_piece(text, inside, first)
}

/// Returns the piece of a string that has `stretch` ASCII bytes before its first escape.
#[inline(never)]
fn escaped_string_piece<'a>(
    text: &'a str,
    inside: &str,
    stretch: usize,
    first: bool,
) -> Option<Piece<'a>>
{
    match escaped_string(text, inside, stretch) {
        Some(extent) => Some(literal_piece(extent)),
        None => piece_by_characters(text, first),
    }
}

/// Returns the piece of a string that has more than a few bytes before its first escape.
#[inline(never)]
fn long_string_piece<'a>(text: &'a str, inside: &str, first: bool) -> Option<Piece<'a>>
{
    match plain_string(inside, count_plain(inside.as_bytes())) {
        Some(extent) => Some(literal_piece(extent)),
        None => other_string_piece(text, first),
    }
}

/// Returns the piece of a string that the faster functions did not decide.
#[inline(never)]
fn other_string_piece(text: &str, first: bool) -> Option<Piece<'_>>
{
    match string(text) {
        Some(extent) => Some(literal_piece(extent)),
        None => piece_by_characters(text, first),
    }
}

/// Returns the piece at the start of `text`, of any kind, by decoding its characters.
#[inline(never)]
fn piece_by_characters(text: &str, first: bool) -> Option<Piece<'_>>
{
    let (kind, end) = read_piece(TextCursor::new(text), first)?;
    let piece = Piece {
        kind,
        bytes: end.bytes_in(text),
        chars: end.chars_before,
    };
    Some(piece)
}

/// Returns how many bytes the literal at the start of `text` has, with its suffix, by the rule `literal`.
///
/// It returns `None` if no literal begins there. For `b"a"b+` it returns 5, for `1.0e+-5` it returns 4, and for `0b12`
/// it returns `None`.
///
/// # Contract
///
/// - `ensures found`: <code>[IfSome] result ([IsAt] [Literal] ([chars] text.now))</code>
/// - `ensures none`: <code>[IfNone] result ([HasNone] [Literal] ([chars] text.now))</code>
///
/// [IfSome]: crate::contracts#std.IfSome
/// [IsAt]: crate::contracts#lexical.Found.IsAt
/// [Literal]: crate::contracts#lexical.Literal.Literal
/// [chars]: crate::contracts#std.chars
/// [IfNone]: crate::contracts#std.IfNone
/// [HasNone]: crate::contracts#lexical.Form.HasNone
pub fn literal_at(text: &str) -> Option<usize>
{
    match fast_literal(text) {
        Some(size) => Some(size),
        None => literal_by_characters(text),
    }
}

/// Returns how many bytes the literal at the start of `text` has, by decoding its characters.
#[inline(never)]
fn literal_by_characters(text: &str) -> Option<usize>
{
    let after = literal(TextCursor::new(text))?;
    Some(after.bytes_in(text))
}

/// Returns how many bytes the name at the start of `text` has, by the rule `name`. A name is one character that may
/// begin an identifier, and all after it that may continue one.
///
/// It returns `None` if the first character may not begin an identifier. For `r#a` it returns 1.
///
/// # Contract
///
/// - `ensures found`: <code>[IfSome] result ([IsAt] [Name] ([chars] text.now))</code>
/// - `ensures none`: <code>[IfNone] result ([HasNone] [Name] ([chars] text.now))</code>
///
/// [IfSome]: crate::contracts#std.IfSome
/// [IsAt]: crate::contracts#lexical.Found.IsAt
/// [Name]: crate::contracts#lexical.Identifier.Name
/// [chars]: crate::contracts#std.chars
/// [IfNone]: crate::contracts#std.IfNone
/// [HasNone]: crate::contracts#lexical.Form.HasNone
pub fn name_at(text: &str) -> Option<usize>
{
    let end = name(TextCursor::new(text))?;
    Some(end.bytes_in(text))
}
