// Made from crates/lexical/src/comments.rt by dev/erase: change that file, not this one.
//! Steps over comments.

use crate::lexical::cursor::TextCursor;
use crate::lexical::docs::comment_kind;
use crate::lexical::piece::PieceKind;
use crate::lexical::search::{skip_to, skip_to_either};
use crate::lexical::text::before;

/// Returns the cursor after the line comment at the cursor, by the rule `line-comment`.
fn skip_line(at: TextCursor<'_>) -> Option<TextCursor<'_>>
{
    let after = at.past("//")?;
    Some(skip_to(after, b'\n'))
}

/// Moves past one `/*`, one `*/` or one other character. Returns the cursor there and how many block comments are open
/// there, where `depth` are open at `at`.
fn step(at: TextCursor<'_>, depth: usize) -> Option<(TextCursor<'_>, usize)>
{
    let (_, after) = at.advance()?;
    if let Some(closed) = at.past("*/") {
        return Some((closed, depth - 1));
    }
    if let Some(opened) = at.past("/*") {
        return Some((opened, depth + 1));
    }
    Some((after, depth))
}

/// Returns the cursor after the block comment at the cursor, by the rule `block-comment`.
fn skip_block(at: TextCursor<'_>) -> Option<TextCursor<'_>>
{
    let mut end = at.past("/*")?;
    let mut depth = 1;
    while depth > 0 {
        let sign = skip_to_either(end, b'*', b'/');
        let (after, inside) = step(sign, depth)?;
        end = after;
        depth = inside;
    }
    Some(end)
}

/// Returns the cursor after the comment at the cursor, or `None` if no comment begins there.
///
/// # Contract
///
/// - `ensures`: <code>[Reads] rule.[comment] at.entry result</code>
///
/// [Reads]: crate::contracts#lexical.RuleMatch.Reads
/// [comment]: crate::contracts#lexical.Comment.comment
pub fn skip_comment(at: TextCursor<'_>) -> Option<TextCursor<'_>>
{
    match skip_line(at) {
        Some(end) => Some(end),
        None => skip_block(at),
    }
}

/// Returns the kind of the comment at the cursor, a gap or a doc comment, and the cursor after it. A doc comment is
/// rejected if its text has a CR with no LF after it.
///
/// # Contract
///
/// - `ensures`: <code>[Answers] ([comment_found] ([find] rule.[comment] ([chars] at.entry.rest.now))) at.entry
///   result</code>
///
/// [Answers]: crate::contracts#lexical.PieceStep.Answers
/// [comment_found]: crate::contracts#lexical.PieceFinder.comment_found
/// [find]: crate::contracts#lexical.Rule.find
/// [comment]: crate::contracts#lexical.Comment.comment
/// [chars]: crate::contracts#std.chars
#[inline(never)]
pub fn comment(at: TextCursor<'_>) -> Option<(PieceKind<'_>, TextCursor<'_>)>
{
    let end = skip_comment(at)?;
    let kind = comment_kind(before(at.rest, end.rest), end.rest)?;
    Some((kind, end))
}
