// Made from crates/explain/src/comment_hints.rt by dev/erase: change that file, not this one.
//! Finds the block comments that are open at the end of a text.

use crate::shim::prelude::Grow;

use crate::lexical::parts::TextCursor;
use crate::shim::alloc::AllocError;

/// What is at a cursor in a block comment.
#[derive(Clone, Copy)]
pub enum Sign {
    /// `/*`, which begins a comment.
    Opens,
    /// `*/`, which ends a comment.
    Closes,
    /// A character at which neither begins.
    Other,
}

/// Returns what is at the cursor, and the cursor after it. Returns `None` at the end of the text.
fn sign_at(at: TextCursor<'_>) -> Option<(Sign, TextCursor<'_>)>
{
    let (_, after) = at.advance()?;
    if let Some(inside) = at.past("/*") {
        return Some((Sign::Opens, inside));
    }
    if let Some(after_sign) = at.past("*/") {
        return Some((Sign::Closes, after_sign));
    }
    Some((Sign::Other, after))
}

/// Returns how many block comments are open at the end of the text, including the one at `start`, and the cursors
/// before and after the comment that ended last.
///
/// # Contract
///
/// - `requires opens`: <code>(more : [List] ℕ) × ([chars] start.rest.now ≡ [codes] \"/\*\" ++ more)</code>
/// - `requires none`: <code>[HasNone] [BlockComment] ([chars] start.rest.now)</code>
/// - `ensures`: <code>[IfOk] result (λ x. [LeftComments] start.entry x.0 x.1)</code>
///
/// [List]: crate::contracts#std.List
/// [chars]: crate::contracts#std.chars
/// [codes]: crate::contracts#std.codes
/// [HasNone]: crate::contracts#lexical.Form.HasNone
/// [BlockComment]: crate::contracts#lexical.Comment.BlockComment
/// [IfOk]: crate::contracts#std.IfOk
/// [LeftComments]: crate::contracts#explain.HintWalk.LeftComments
pub fn open_comments<'a>(
    start: TextCursor<'a>,
) -> Result<(usize, Option<(TextCursor<'a>, TextCursor<'a>)>), AllocError>
{
    let mut opened = Vec::new();
    let mut closed = None;
    let mut at = start;
    while let Some((sign, after)) = sign_at(at) {
        match sign {
            Sign::Opens => opened.push_fallibly(at)?,
            Sign::Closes => {
                let Some(from) = opened.pop() else {
                    unreachable!()
                };
                closed = Some((from, after));
            }
            Sign::Other => {}
        }
        at = after;
    }
    Ok((opened.len(), closed))
}
