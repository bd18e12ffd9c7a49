// Made from crates/explain/src/hints.rt by dev/erase: change that file, not this one.
//! Advice that helps to fix an error.

use crate::explain::comment_hints::open_comments;
use crate::explain::explained::{Explained, Stretch};
use crate::explain::explaining::stretch;
use crate::explain::quote_hints::nearest;
use crate::explain::reason::Reason;
use crate::lexical::parts::TextCursor;
use crate::pm_span::parts::bounds;
use crate::shim::alloc::AllocError;

/// Advice that helps to fix an error, as defined in `specs/Hint.antt`.
#[derive(Clone, Copy)]
pub enum Hint {
    /// Advice for a block comment that doesn't end.
    Comments {
        /// How many block comments are open at the end of the text, including this one.
        depth: usize,
        /// The comment inside it that ended last, if one did. Often this comment was not meant to begin.
        closed: Option<Stretch>,
    },
    /// Advice for a raw string that doesn't end: the quote with the most hash signs right after it, together with
    /// these. Of several such quotes it is the first.
    Quote(Stretch),
}

/// Returns advice on the error of a text. `explained` must be what [`explain`](crate::explain::explain) returned for
/// this text.
///
/// Returns `None` for all reasons except an unclosed block comment, and an unclosed raw string that has a quote in it.
/// Fails if memory for the list of open comments runs out. Nothing else is allocated.
///
/// In `/* a/*.rs */` one comment is open at the end, and `/*.rs */` ended last, the bytes 4..12.
///
/// # Contract
///
/// - `requires fits`: <code>[Fits] [new_map] ([length] ([chars] text.now))</code>
/// - `requires explained`: <code>[IsExplained] ([next_lo] [new_map]) ([chars] text.now) explained.now</code>
/// - `ensures`: <code>[IfOk] result ([IsHint] ([next_lo] [new_map]) ([chars] text.now) explained.now)</code>
///
/// [Fits]: crate::contracts#pm_span.Files.Fits
/// [new_map]: crate::contracts#pm_span.Files.new_map
/// [length]: crate::contracts#std.length
/// [chars]: crate::contracts#std.chars
/// [IsExplained]: crate::contracts#explain.Explained.IsExplained
/// [next_lo]: crate::contracts#pm_span.Files.next_lo
/// [IfOk]: crate::contracts#std.IfOk
/// [IsHint]: crate::contracts#explain.Hint.IsHint
pub fn advice(text: &str, explained: &Explained) -> Result<Option<Hint>, AllocError>
{
    match explained.reason {
        Reason::UnclosedComment => Ok(Some(comment_hint(text, explained.at)?)),
        Reason::UnclosedRawString => Ok(quote_hint(text, explained.at)),
        _ => Ok(None),
    }
}

/// Returns the hint for a block comment that doesn't end. `at` is its `/*`.
fn comment_hint(text: &str, at: Stretch) -> Result<Hint, AllocError>
{
    let start = TextCursor::new(&text[at.start..]);
    let (lo, _) = bounds(at.span);
    let (depth, ended) = open_comments(start)?;
    let Some((from, to)) = ended else {
        return Ok(Hint::Comments {
            depth,
            closed: None,
        });
    };
    Ok(Hint::Comments {
        depth,
        closed: Some(between(text, from, to, lo)),
    })
}

/// Returns the hint for a raw string that doesn't end, or `None` if it has no quote in it. `at` is what opens the
/// string.
fn quote_hint(text: &str, at: Stretch) -> Option<Hint>
{
    let inside = TextCursor::new(&text[at.end..]);
    let (_, lo) = bounds(at.span);
    let (from, to) = nearest(inside)?;
    Some(Hint::Quote(between(text, from, to, lo)))
}

/// Returns the part of a text between two cursors. The cursors belong to a rest of the text that begins at the position
/// `base`.
fn between(text: &str, from: TextCursor<'_>, to: TextCursor<'_>, base: u32) -> Stretch
{
    let lo = base + from.chars_before as u32;
    let hi = base + to.chars_before as u32;
    stretch(text, from.rest, to.rest, lo, hi)
}
