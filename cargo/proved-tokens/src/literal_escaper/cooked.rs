// Made from crates/literal_escaper/src/cooked.rt by dev/erase: change that file, not this one.
//! Reads contents with escapes, item by item.

use crate::literal_escaper::content_cursor::ContentCursor;
use crate::literal_escaper::errors::EscapeError;
use crate::literal_escaper::front::{Front, Item, next_front};
use crate::literal_escaper::kind::Unescape;
use crate::shim::ops::Range;

/// The rest of a content with escapes.
pub struct Cooked<'a> {
    /// The cursor at which the rest begins.
    pub cursor: ContentCursor<'a>,
    /// The range of a warning about a white character. If there is one, it is the next item.
    pub warning: Option<Range<usize>>,
}

impl<'a> Cooked<'a> {
    /// Returns the content with the cursor at its start.
    ///
    /// # Contract
    ///
    /// - `ensures rest`: <code>[text_at] result.cursor ≡ [chars] content.now</code>
    /// - `ensures end`: <code>result.cursor.end ≡ [bytes] ([chars] content.now)</code>
    /// - `ensures warning`: <code>result.warning ≡ [None]</code>
    ///
    /// [text_at]: crate::contracts#literal_escaper.Unescaping.text_at
    /// [chars]: crate::contracts#std.chars
    /// [bytes]: crate::contracts#literal_escaper.Text.bytes
    /// [None]: crate::contracts#std.None
    pub fn new(content: &'a str) -> Self
    {
        Cooked {
            cursor: ContentCursor::new(content),
            warning: None,
        }
    }
}

/// Returns the next item of the content, and moves past it.
///
/// # Contract
///
/// - `ensures`: <code>[YieldsFirst] ([cooked_left] K.kind) content.old result content.new</code>
///
/// [YieldsFirst]: crate::contracts#std.YieldsFirst
/// [cooked_left]: crate::contracts#literal_escaper.Unescaping.cooked_left
pub fn next_item<K: Unescape>(content: &mut Cooked<'_>) -> Option<Item<K::Unit>>
{
    if let Some(range) = content.warning.take() {
        return Some((range, Err(EscapeError::UnskippedWhitespaceWarning)));
    }
    let Front {
        item,
        warning,
        after,
    } = next_front::<K>(content.cursor);
    content.cursor = after;
    content.warning = warning;
    item
}
