// Made from crates/literal_escaper/src/raw.rt by dev/erase: change that file, not this one.
//! Reads raw contents, item by item.

use crate::literal_escaper::classes::{ContentClass, holds};
use crate::literal_escaper::content_cursor::ContentCursor;
use crate::literal_escaper::errors::EscapeError;
use crate::literal_escaper::front::Item;
use crate::literal_escaper::kind::CheckRaw;

/// Returns the unit of a character of a raw content, or an error.
fn unit<K: CheckRaw>(c: char) -> Result<K::Unit, EscapeError>
{
    if holds(ContentClass::RawSpecial, c) {
        Err(EscapeError::BareCarriageReturnInRawString)
    } else {
        K::of_char(c)
    }
}

/// Returns the next item of a raw content, and moves the cursor past it.
///
/// # Contract
///
/// - `ensures`: <code>[YieldsFirst] ([raw_left] K.unit_of) cursor.old result cursor.new</code>
///
/// [YieldsFirst]: crate::contracts#std.YieldsFirst
/// [raw_left]: crate::contracts#literal_escaper.Unescaping.raw_left
pub fn next_raw_item<K: CheckRaw>(cursor: &mut ContentCursor<'_>) -> Option<Item<K::Unit>>
{
    let (c, after) = cursor.advance()?;
    let range = cursor.byte_offset()..after.byte_offset();
    *cursor = after;
    Some((range, unit::<K>(c)))
}
