// Made from crates/explain/src/stuck.rt by dev/erase: change that file, not this one.
//! Finds the reason why no piece begins at a cursor.

use crate::explain::letters::letter;
use crate::explain::numbers::number;
use crate::explain::quotes::quote;
use crate::explain::reason::Reason;
use crate::explain::strings::string;
use crate::explain::trouble::Trouble;
use crate::lexical::parts::{
    PieceStart, StringKind, TextCursor, begins, piece_start_of, skip_comment, skip_to,
};

/// Returns the cursors before and after the first CR, from `inside` on, that no LF follows.
fn bare_return(inside: TextCursor<'_>) -> Option<(TextCursor<'_>, TextCursor<'_>)>
{
    let mut at = skip_to(inside, b'\r');
    while let Some((_, after)) = at.advance() {
        if !begins(after.rest, "\n") {
            return Some((at, after));
        }
        at = skip_to(after, b'\r');
    }
    None
}

/// The number of bytes that open a doc comment.
const DOC_FRONT: usize = 3;

/// Returns why no comment is at the cursor, which is before what begins a comment.
fn comment(at: TextCursor<'_>) -> Trouble<'_>
{
    let Some(_) = skip_comment(at) else {
        let Some(after) = at.past("/*") else {
            unreachable!()
        };
        return Trouble {
            reason: Reason::UnclosedComment,
            at,
            after,
        };
    };
    let Some((at, after)) = bare_return(at.after_bytes(DOC_FRONT)) else {
        unreachable!()
    };
    Trouble {
        reason: Reason::BareReturnInDoc,
        at,
        after,
    }
}

/// Returns why no piece begins at the cursor, which isn't at the end of the text. `first` says whether the cursor is at
/// the start of a source.
///
/// # Contract
///
/// - `requires some`: <code>[chars] at.rest.now ≢ \[\]</code>
/// - `requires none`: <code>[find_piece] first ([chars] at.rest.now) ≡ [None]</code>
/// - `ensures`: <code>[IsTrouble] at.entry result</code>
///
/// [chars]: crate::contracts#std.chars
/// [find_piece]: crate::contracts#lexical.PieceFinder.find_piece
/// [None]: crate::contracts#std.None
/// [IsTrouble]: crate::contracts#explain.Trouble.IsTrouble
pub fn reason_at(at: TextCursor<'_>, first: bool) -> Trouble<'_>
{
    let Some((c, after)) = at.advance() else {
        unreachable!()
    };
    match piece_start_of(c) {
        PieceStart::Digit => number(at),
        PieceStart::Slash => comment(at),
        PieceStart::Quote => quote(at, after),
        PieceStart::DoubleQuote => string(at, after, StringKind::Plain),
        PieceStart::Letter => letter(at),
        PieceStart::FrontMark => Trouble {
            reason: Reason::MisplacedMark,
            at,
            after,
        },
        PieceStart::Other => Trouble {
            reason: Reason::NoToken,
            at,
            after,
        },
        PieceStart::White => unreachable!(),
        PieceStart::Opener => unreachable!(),
        PieceStart::Closer => unreachable!(),
        PieceStart::Mark => unreachable!(),
    }
}
