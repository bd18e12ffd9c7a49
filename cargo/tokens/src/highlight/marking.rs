// Made from crates/highlight/src/marking.rt by dev/erase: change that file, not this one.
//! Marks the pieces of a text.

use crate::highlight::format::Format;
use crate::highlight::nesting::Nesting;
use crate::highlight::style::{Style, style_of};
use crate::highlight::unread::push_unread;
use crate::highlight::writing::Sheet;
use proved_tokens::explain::{ExplainError, Explained, explain};
use crate::messages::Failure;
use proved_tokens::proc_macro2::{PieceKind, PlacedPiece, pieces};
use proved_tokens::shim::alloc::AllocError;

/// Returns the text with its pieces marked.
///
/// A closer that matches no opener is marked as an error, and so is an opener that is never closed. If the text could
/// not be read to its end, openers that still wait are not marked, since their closers may follow. Where no piece
/// begins, the part that is wrong is marked with the reason, and the text around it is marked as not read.
pub fn mark_pieces(format: Format, text: &str) -> Result<String, Failure>
{
    let mut styling = Styling {
        delimiters: styles_of_delimiters(text)?,
        is_after_quote: false,
    };
    let mut sheet = Sheet::new(format);
    let mut walk = pieces(text);
    loop {
        let next = walk.next_after_white();
        styling.is_after_quote = styling.is_after_quote & next.white.is_empty();
        let Some(piece) = next.piece else {
            sheet.push_piece(Style::Bare, next.white)?;
            let answer = explanation_of(next.rest)?;
            push_unread(&mut sheet, &answer, next.rest)?;
            return Ok(sheet.out);
        };
        let style = styling.style_of(piece);
        sheet.push_piece(Style::Bare, next.white)?;
        sheet.push_piece(style, piece.text)?;
    }
}

/// Returns the styles of the delimiters in reverse order, so that the first is the last item.
fn styles_of_delimiters(text: &str) -> Result<Vec<Style>, AllocError>
{
    let mut nesting = Nesting::new();
    let mut walk = pieces(text);
    while let Some(next) = walk.next_after_white().piece {
        nesting.take(next.piece.kind)?;
    }
    let mut styles = nesting.into_styles(walk.rest().is_empty());
    styles.reverse();
    Ok(styles)
}

/// What is known before a piece and decides its style.
struct Styling {
    // The styles of the remaining delimiters, in reverse order.
    delimiters: Vec<Style>,
    // Whether the piece before was the `'` of a lifetime.
    is_after_quote: bool,
}

impl Styling {
    /// Returns the style of the next piece.
    fn style_of(&mut self, next: PlacedPiece<'_>) -> Style
    {
        let is_after_quote = self.is_after_quote;
        self.is_after_quote = is_quote(next.piece.kind);
        match next.piece.kind {
            PieceKind::Opener(_) | PieceKind::Closer(_) => {
                self.delimiters.pop().unwrap_or(Style::Unclosed)
            }
            PieceKind::Name { .. } if is_after_quote => Style::Lifetime,
            kind => style_of(kind, next.text),
        }
    }
}

/// Whether the piece is the mark `'`.
fn is_quote(kind: PieceKind<'_>) -> bool
{
    match kind {
        PieceKind::Mark { mark, .. } => mark == '\'',
        _ => false,
    }
}

/// Returns why the text doesn't parse, if it doesn't.
fn explanation_of(text: &str) -> Result<Option<Explained>, Failure>
{
    match explain(text) {
        Ok(answer) => Ok(answer),
        Err(ExplainError::MapFull) => Err(Failure::MapFull),
        Err(ExplainError::Memory(_)) => Err(Failure::Memory),
    _ => unreachable!("each case is above"),
}
}
