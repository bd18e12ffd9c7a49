// Made from crates/explain/src/contents.rt by dev/erase: change that file, not this one.
//! The first error in the content of a literal that is closed.

use crate::explain::reason::Reason;
use crate::explain::trouble::Trouble;
use crate::lexical::parts::{StringKind, TextCursor};
use crate::literal_escaper::{EscapeError, unescape_byte_str, unescape_c_str, unescape_str};
use crate::shim::ops::Range;

/// The first item that the escaper reads from a content.
pub struct Front {
    /// The size of the item in bytes.
    pub size: usize,
    /// The error of the item, if it has one.
    pub error: Option<EscapeError>,
}

/// What is at a cursor in the content of a string.
pub enum ContentItem<'a> {
    /// A unit, and the cursor after it.
    Unit(TextCursor<'a>),
    /// An error, and the cursor after what was read for it.
    Fault(EscapeError, TextCursor<'a>),
    /// The quote that ends the string.
    End,
}

/// Returns the content from the cursor up to the quote before `end`.
///
/// # Contract
///
/// - `requires`: <code>(quote : ℕ) × (quote &lt; 128) × [IsInside] quote at end</code>
/// - `ensures`: <code>(quote : ℕ) (left : [List] ℕ) → quote &lt; 128 → [IsLeft] quote left at.entry end.entry →
///   [chars] result.now ≡ left</code>
///
/// [IsInside]: crate::contracts#explain.Walk.IsInside
/// [List]: crate::contracts#std.List
/// [IsLeft]: crate::contracts#explain.Walk.IsLeft
/// [chars]: crate::contracts#std.chars
pub fn content<'a>(at: TextCursor<'a>, end: TextCursor<'a>) -> &'a str
{
    let size = at.rest.len() - end.rest.len() - 1;
    &at.rest[..size]
}

/// Returns the size and the error of an item of the escaper, whose range begins at 0.
fn front_of<U: Copy>(range: Range<usize>, unit: Result<U, EscapeError>) -> Front
{
    let size = range.end;
    match unit {
        Ok(_) => Front { size, error: None },
        Err(error) => Front {
            size,
            error: Some(error),
        },
    }
}

/// Returns the first item that the escaper reads from a content, or `None` if the content is empty. The content must
/// not begin with a backslash and a line end, which the escaper reads in another way.
fn read_front(content: &str, kind: StringKind) -> Option<Front>
{
    match kind {
        StringKind::Plain => {
            let (range, unit) = unescape_str(content).next()?;
            Some(front_of(range, unit))
        }
        StringKind::Byte => {
            let (range, unit) = unescape_byte_str(content).next()?;
            Some(front_of(range, unit))
        }
        StringKind::C => {
            let (range, unit) = unescape_c_str(content).next()?;
            Some(front_of(range, unit))
        }
    }
}

/// Returns the cursor after CR LF, or after a backslash and a line end.
fn past_line_end(at: TextCursor<'_>) -> Option<TextCursor<'_>>
{
    if let Some(end) = at.past("\r\n") {
        return Some(end);
    }
    match at.past("\\\n") {
        Some(end) => Some(end),
        None => at.past("\\\r\n"),
    }
}

/// Returns what is at the cursor in the content of a string. The quote before `end` closes the string.
fn next_step<'a>(at: TextCursor<'a>, end: TextCursor<'a>, kind: StringKind) -> ContentItem<'a>
{
    if let Some(after) = past_line_end(at) {
        return ContentItem::Unit(after);
    }
    match read_front(content(at, end), kind) {
        Some(Front { size, error: None }) => ContentItem::Unit(at.after_bytes(size)),
        Some(
            Front {
                size,
                error: Some(error),
            },
        ) => ContentItem::Fault(error, at.after_bytes(size)),
        None => ContentItem::End,
    }
}

/// Whether the error is about the last character that was read, and not about the whole escape.
fn is_of_last(error: &EscapeError) -> bool
{
    matches!(
        error,
        EscapeError::InvalidEscape
            | EscapeError::InvalidCharInHexEscape
            | EscapeError::InvalidCharInUnicodeEscape
            | EscapeError::LeadingUnderscoreUnicodeEscape
    )
}

/// Returns the cursor before the last character between `at` and `end`.
fn last_character<'a>(at: TextCursor<'a>, end: TextCursor<'a>) -> TextCursor<'a>
{
    let mut last = at;
    while last.chars_before + 1 < end.chars_before {
        let Some((_, after)) = last.advance() else {
            unreachable!()
        };
        last = after;
    }
    last
}

/// Returns the trouble for an error in what was read from `at` to `after`. The wrong part is all of it, or its last
/// character.
///
/// # Contract
///
/// - `requires`: <code>(past : [IsPast] at after) × (1 ≤ [length] past.part)</code>
/// - `ensures`: <code>[IsFaulty] error at.entry after.entry result</code>
///
/// [IsPast]: crate::contracts#explain.Walk.IsPast
/// [length]: crate::contracts#std.length
/// [IsFaulty]: crate::contracts#explain.Walk.IsFaulty
pub fn faulty<'a>(at: TextCursor<'a>, after: TextCursor<'a>, error: EscapeError) -> Trouble<'a>
{
    let at = if is_of_last(&error) {
        last_character(at, after)
    } else {
        at
    };
    Trouble {
        reason: Reason::Content(error),
        at,
        after,
    }
}

/// Returns the first error in the content of a string that begins at `at`. Its content begins at `inside`, and `end` is
/// after its closing quote.
///
/// # Contract
///
/// - `requires opens`: <code>[Passes] ([Exactly] ([front] kind)) at inside</code>
/// - `requires closed`: <code>[Passes] [closed_body] inside end</code>
/// - `requires none`: <code>[find] ([cooked_string] kind) ([chars] at.rest.now) ≡ [None]</code>
/// - `ensures`: <code>[IsTrouble] at.entry result</code>
///
/// [Passes]: crate::contracts#lexical.RuleMatch.Passes
/// [Exactly]: crate::contracts#lexical.Rule.Exactly
/// [front]: crate::contracts#lexical.Quoted.front
/// [closed_body]: crate::contracts#explain.Shapes.closed_body
/// [find]: crate::contracts#lexical.Rule.find
/// [cooked_string]: crate::contracts#lexical.Quoted.cooked_string
/// [chars]: crate::contracts#std.chars
/// [None]: crate::contracts#std.None
/// [IsTrouble]: crate::contracts#explain.Trouble.IsTrouble
pub fn string_content<'a>(
    at: TextCursor<'a>,
    inside: TextCursor<'a>,
    end: TextCursor<'a>,
    kind: StringKind,
) -> Trouble<'a>
{
    let mut place = inside;
    loop {
        match next_step(place, end, kind) {
            ContentItem::Unit(after) => place = after,
            ContentItem::Fault(error, after) => return faulty(place, after, error),
            ContentItem::End => unreachable!(),
        }
    }
}
