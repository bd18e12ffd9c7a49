// Made from crates/lexical/src/docs.rt by dev/erase: change that file, not this one.
//! Doc comments and their text.

use crate::lexical::piece::PieceKind;
use crate::lexical::search::from_first;
use crate::lexical::text::{before, begins, split_first, without_return};

/// Whether the comment is an inner doc comment, which documents the item around it.
fn is_inner(comment: &str) -> bool
{
    begins(comment, "//!") || begins(comment, "/*!")
}

/// Whether the comment is a doc comment, by the rule `doc-comment`.
fn is_doc(comment: &str) -> bool
{
    let outer = begins(comment, "///") || begins(comment, "/**");
    let plain = begins(comment, "////") || begins(comment, "/***") || begins(comment, "/**/");
    is_inner(comment) || outer && !plain
}

/// Returns the text of a doc comment that `rest` follows, by the rule `doc-text`.
fn doc_text<'a>(comment: &'a str, rest: &str) -> &'a str
{
    let doc_body = &comment[3..];
    if begins(comment, "/*") {
        before(doc_body, "*/")
    } else if begins(rest, "\n") {
        without_return(doc_body)
    } else {
        doc_body
    }
}

/// Whether the text has a CR with no LF after it.
fn has_bare_return(text: &str) -> bool
{
    let mut rest = from_first(text, b'\r');
    while let Some((_, after)) = split_first(rest) {
        if !begins(after, "\n") {
            return true;
        }
        rest = from_first(after, b'\r');
    }
    false
}

/// Returns which kind of piece a comment is that `rest` follows. A doc comment is rejected if its text has a CR with no
/// LF after it.
///
/// # Contract
///
/// - `requires`: <code>[Comment] ([chars] comment.now) ([chars] rest.now)</code>
/// - `ensures`: <code>[Tells] ([kind_of_comment] ([chars] comment.now) ([chars] rest.now)) ([chars]
///   comment.now) result</code>
///
/// [Comment]: crate::contracts#lexical.Comment.Comment
/// [chars]: crate::contracts#std.chars
/// [Tells]: crate::contracts#lexical.PieceStep.Tells
/// [kind_of_comment]: crate::contracts#lexical.CommentKind.comment_kind
pub fn comment_kind<'a>(comment: &'a str, rest: &str) -> Option<PieceKind<'a>>
{
    if !is_doc(comment) {
        return Some(PieceKind::Gap);
    }
    let text = doc_text(comment, rest);
    if has_bare_return(text) {
        return None;
    }
    let kind = PieceKind::Doc {
        inner: is_inner(comment),
        text,
    };
    Some(kind)
}
