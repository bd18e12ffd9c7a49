// Made from crates/lexical/src/gaps.rt by dev/erase: change that file, not this one.
//! White characters, each of which is a gap.

use crate::lexical::bytes::{Class, holds_ascii, skip};
use crate::lexical::cursor::TextCursor;
use crate::lexical::fast_path::byte_at;

/// Counts the spaces at the start, four at a time. It leaves up to three of them uncounted.
#[cfg_attr(not(debug_assertions), inline(always))]
fn spaces(bytes: &[u8]) -> usize
{
    let mut count = 0;
    while bytes[count..].starts_with(b"    ") {
        count += 4;
    }
    count
}

/// Returns the text after the ASCII white characters at its start, and how many characters they are. Each of these is a
/// piece by the rule `gap`.
///
/// If the text begins with none, it returns the whole text and 0. For two spaces and `a b` it returns `a b` and 2.
///
/// # Contract
///
/// - `ensures passed`: <code>[IsPastWhite] ([chars] text.now) ([chars] result.0.now) result.1</code>
/// - `ensures utf8`: <code>[IsUtf8] result.0.now</code>
///
/// [IsPastWhite]: crate::contracts#lexical.WhiteRun.IsPastWhite
/// [chars]: crate::contracts#std.chars
/// [IsUtf8]: crate::contracts#std.IsUtf8
#[cfg_attr(not(debug_assertions), inline(always))]
pub fn past_white(text: &str) -> (&str, usize)
{
    let bytes = text.as_bytes();
    let mut white = 0;
    while white < bytes.len() {
        if !holds_ascii(Class::White, bytes[white]) {
            break;
        }
        white += 1;
        // Lines often begin with many spaces.
        white += spaces(&bytes[white..]);
    }
    (&text[white..], white)
}

/// Counts the bytes of all white characters at the start of the text, past ASCII too.
#[inline(never)]
fn white_size(text: &str) -> usize
{
    skip(TextCursor::new(text), Class::White).bytes_in(text)
}

/// Splits the text after all white characters at its start, past ASCII too.
///
/// For two spaces and `a b` it returns the two spaces and `a b`.
///
/// # Contract
///
/// - `ensures`: <code>[SplitsWhite] text.now result.0.now result.1.now</code>
///
/// [SplitsWhite]: crate::contracts#lexical.WhiteRun.SplitsWhite
#[cfg_attr(not(debug_assertions), inline(always))]
pub fn split_white(text: &str) -> (&str, &str)
{
    let (_, size) = past_white(text);
    if byte_at(text.as_bytes(), size).is_ascii() {
        return text.split_at(size);
    }
    // This call is separate, so that the split above needs no check that it falls between two characters.
    text.split_at(white_size(text))
}
