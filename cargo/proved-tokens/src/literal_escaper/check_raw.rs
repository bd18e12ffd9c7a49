// Made from crates/literal_escaper/src/check_raw.rt by dev/erase: change that file, not this one.
//! Returns the items of raw contents.

use crate::literal_escaper::content_cursor::ContentCursor;
use crate::literal_escaper::errors::EscapeError;
use crate::literal_escaper::kind::{Bytes, CStr, Str};
use crate::literal_escaper::num::NonZeroChar;
use crate::literal_escaper::raw::next_raw_item;
use crate::shim::ops::Range;

/// An iterator over the items of a raw string's content. [`check_raw_str`] makes one.
pub struct CheckRawStr<'a> {
    cursor: ContentCursor<'a>,
}

impl Iterator for CheckRawStr<'_> {
    type Item = (Range<usize>, Result<char, EscapeError>);

    fn next(&mut self) -> Option<(Range<usize>, Result<char, EscapeError>)> {
        next_raw_item::<Str>(&mut self.cursor)
    }
}

/// Returns the items of a raw string's content, one for each character, by the rules `raw-items` and `string-kind`.
///
/// An item has its range of bytes in the content, and the character or the error there.
///
/// For `\n` the items are `\` at 0..1 and `n` at 1..2. For a CR the item is `BareCarriageReturnInRawString` at 0..1.
///
/// # Contract
///
/// - `ensures value`: <code>result ≡ [raw_items] [any_char] ([chars] src.now)</code>
/// - `ensures within`: <code>[AreWithin] src.now result</code>
///
/// [raw_items]: crate::contracts#literal_escaper.Items.raw_items
/// [any_char]: crate::contracts#literal_escaper.Kind.any_char
/// [chars]: crate::contracts#std.chars
/// [AreWithin]: crate::contracts#literal_escaper.Within.AreWithin
pub fn check_raw_str(src: &str) -> CheckRawStr<'_>
{
    CheckRawStr {
        cursor: ContentCursor::new(src),
    }
}

/// An iterator over the items of a raw byte string's content. [`check_raw_byte_str`] makes one.
pub struct CheckRawByteStr<'a> {
    cursor: ContentCursor<'a>,
}

impl Iterator for CheckRawByteStr<'_> {
    type Item = (Range<usize>, Result<u8, EscapeError>);

    fn next(&mut self) -> Option<(Range<usize>, Result<u8, EscapeError>)> {
        next_raw_item::<Bytes>(&mut self.cursor)
    }
}

/// Returns the items of a raw byte string's content, one for each character, by the rules `raw-items` and `byte-kind`.
///
/// An item has its range of bytes in the content, and the byte or the error there.
///
/// For `aé` the items are 0x61 at 0..1 and `NonAsciiCharInByte` at 1..3.
///
/// # Contract
///
/// - `ensures value`: <code>result ≡ [raw_items] [ascii_byte] ([chars] src.now)</code>
/// - `ensures within`: <code>[AreWithin] src.now result</code>
///
/// [raw_items]: crate::contracts#literal_escaper.Items.raw_items
/// [ascii_byte]: crate::contracts#literal_escaper.Kind.ascii_byte
/// [chars]: crate::contracts#std.chars
/// [AreWithin]: crate::contracts#literal_escaper.Within.AreWithin
pub fn check_raw_byte_str(src: &str) -> CheckRawByteStr<'_>
{
    CheckRawByteStr {
        cursor: ContentCursor::new(src),
    }
}

/// An iterator over the items of a raw C string's content. [`check_raw_c_str`] makes one.
pub struct CheckRawCStr<'a> {
    cursor: ContentCursor<'a>,
}

impl Iterator for CheckRawCStr<'_> {
    type Item = (Range<usize>, Result<NonZeroChar, EscapeError>);

    fn next(&mut self) -> Option<(Range<usize>, Result<NonZeroChar, EscapeError>)> {
        next_raw_item::<CStr>(&mut self.cursor)
    }
}

/// Returns the items of a raw C string's content, one for each character, by the rules `raw-items` and `c-kind`.
///
/// An item has its range of bytes in the content, and the character or the error there. No character is NUL.
///
/// For `a` and NUL the items are `a` at 0..1 and `NulInCStr` at 1..2.
///
/// # Contract
///
/// - `ensures value`: <code>result ≡ [raw_items] [raw_c_char] ([chars] src.now)</code>
/// - `ensures within`: <code>[AreWithin] src.now result</code>
///
/// [raw_items]: crate::contracts#literal_escaper.Items.raw_items
/// [raw_c_char]: crate::contracts#literal_escaper.Units.raw_c_char
/// [chars]: crate::contracts#std.chars
/// [AreWithin]: crate::contracts#literal_escaper.Within.AreWithin
pub fn check_raw_c_str(src: &str) -> CheckRawCStr<'_>
{
    CheckRawCStr {
        cursor: ContentCursor::new(src),
    }
}
