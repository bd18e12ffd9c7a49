// Made from crates/pretty/src/comments.rt by dev/erase: change that file, not this one.
//! Counts the plain comments of a text, which no token keeps.

use proved_tokens::lexical::parts::begins;
use proved_tokens::lexical::{PieceKind, PlacedPiece, pieces};
use proved_tokens::shim::io;
use proved_tokens::shim::io::Write;

/// Returns how many comments of a text are not doc comments.
///
/// Example: `/// a`, LF, `fn f() {} // b` and `/* c */` have two.
pub fn count_comments(text: &str) -> usize
{
    // Each comment has at least one byte, so the count cannot overflow.
    let _bytes = text.len();
    let mut count: usize = 0;
    let mut walk = pieces(text);
    while let Some(next) = walk.next_after_white().piece {
        if is_comment(next) {
            count += 1;
        }
    }
    count
}

/// Whether the piece is a comment, but not a doc comment.
fn is_comment(next: PlacedPiece<'_>) -> bool
{
    match next.piece.kind {
        PieceKind::Gap => begins(next.text, "/"),
        _ => false,
    }
}

/// Writes to `errors` that `count` comments were left out.
pub fn say_left_out<E: Write>(count: usize, errors: &mut E) -> io::Result<()>
{
    if count == 1 {
        return writeln!(
            errors,
            "note: 1 comment is not kept; tokens indent keeps it"
        );
    }
    writeln!(
        errors,
        "note: {count} comments are not kept; tokens indent keeps them"
    )
}

/// Writes to `errors` that nothing was written for the file at this path, since `count` comments would be lost.
pub fn say_denied<E: Write>(path: &str, count: usize, errors: &mut E) -> io::Result<()>
{
    if count == 1 {
        return writeln!(
            errors,
            "{path}: error: 1 comment would be lost; tokens indent keeps it"
        );
    }
    writeln!(
        errors,
        "{path}: error: {count} comments would be lost; tokens indent keeps them"
    )
}
