// Made from crates/literal_escaper/src/unescape.rt by dev/erase: change that file, not this one.
//! Returns the items of contents with escapes.

use crate::literal_escaper::content_cursor::ContentCursor;
use crate::literal_escaper::cooked::{Cooked, next_item};
use crate::literal_escaper::errors::EscapeError;
use crate::literal_escaper::kind::{Bytes, CStr, Str};
use crate::literal_escaper::mixed_unit::MixedUnit;
use crate::literal_escaper::single::unescape_single;
use crate::shim::ops::Range;

/// An iterator over the items of a string's content. [`unescape_str`] makes one.
pub struct UnescapeStr<'a> {
    content: Cooked<'a>,
}

impl Iterator for UnescapeStr<'_> {
    type Item = (Range<usize>, Result<char, EscapeError>);

    fn next(&mut self) -> Option<(Range<usize>, Result<char, EscapeError>)> {
        next_item::<Str>(&mut self.content)
    }
}

/// Returns the items of a string's content, by the rules `items` and `string-kind`.
///
/// The content is the text between the quotes. An item has its range of bytes in the content, and its character or the
/// error there.
///
/// For `\x41b` the items are `A` at 0..4 and `b` at 4..5. For `\x80` the item is `OutOfRangeHexEscape` at 0..4.
///
/// # Contract
///
/// - `ensures value`: <code>result ≡ [items] [string_kind] ([chars] src.now)</code>
/// - `ensures within`: <code>[AreWithin] src.now result</code>
///
/// [items]: crate::contracts#literal_escaper.Items.items
/// [string_kind]: crate::contracts#literal_escaper.Kind.string_kind
/// [chars]: crate::contracts#std.chars
/// [AreWithin]: crate::contracts#literal_escaper.Within.AreWithin
pub fn unescape_str(src: &str) -> UnescapeStr<'_>
{
    UnescapeStr {
        content: Cooked::new(src),
    }
}

/// An iterator over the items of a byte string's content. [`unescape_byte_str`] makes one.
pub struct UnescapeByteStr<'a> {
    content: Cooked<'a>,
}

impl Iterator for UnescapeByteStr<'_> {
    type Item = (Range<usize>, Result<u8, EscapeError>);

    fn next(&mut self) -> Option<(Range<usize>, Result<u8, EscapeError>)> {
        next_item::<Bytes>(&mut self.content)
    }
}

/// Returns the items of a byte string's content, by the rules `items` and `byte-kind`.
///
/// An item has its range of bytes in the content, and its byte or the error there.
///
/// For `\xFF` the item is 0xFF at 0..4. For `\u{41}` the item is `UnicodeEscapeInByte` at 0..6.
///
/// # Contract
///
/// - `ensures value`: <code>result ≡ [items] [byte_kind] ([chars] src.now)</code>
/// - `ensures within`: <code>[AreWithin] src.now result</code>
///
/// [items]: crate::contracts#literal_escaper.Items.items
/// [byte_kind]: crate::contracts#literal_escaper.Kind.byte_kind
/// [chars]: crate::contracts#std.chars
/// [AreWithin]: crate::contracts#literal_escaper.Within.AreWithin
pub fn unescape_byte_str(src: &str) -> UnescapeByteStr<'_>
{
    UnescapeByteStr {
        content: Cooked::new(src),
    }
}

/// An iterator over the items of a C string's content. [`unescape_c_str`] makes one.
pub struct UnescapeCStr<'a> {
    content: Cooked<'a>,
}

impl Iterator for UnescapeCStr<'_> {
    type Item = (Range<usize>, Result<MixedUnit, EscapeError>);

    fn next(&mut self) -> Option<(Range<usize>, Result<MixedUnit, EscapeError>)> {
        next_item::<CStr>(&mut self.content)
    }
}

/// Returns the items of a C string's content, by the rules `items` and `c-kind`.
///
/// An item has its range of bytes in the content, and its unit or the error there. A unit is a character or a byte past
/// ASCII, never zero.
///
/// For `\x80` the item is the byte 0x80 at 0..4. For `\0` the item is `NulInCStr` at 0..2.
///
/// # Contract
///
/// - `ensures value`: <code>result ≡ [items] [c_kind] ([chars] src.now)</code>
/// - `ensures within`: <code>[AreWithin] src.now result</code>
///
/// [items]: crate::contracts#literal_escaper.Items.items
/// [c_kind]: crate::contracts#literal_escaper.Kind.c_kind
/// [chars]: crate::contracts#std.chars
/// [AreWithin]: crate::contracts#literal_escaper.Within.AreWithin
pub fn unescape_c_str(src: &str) -> UnescapeCStr<'_>
{
    UnescapeCStr {
        content: Cooked::new(src),
    }
}

/// Returns the one character of a character literal's content, by the rule `single-item`, or the error in it.
///
/// For `\n` it returns LF. The empty text is the error `ZeroChars`, `ab` is `MoreThanOneChar`, and a bare `'` is
/// `EscapeOnlyChar`.
///
/// # Contract
///
/// - `ensures`: <code>result ≡ ([single] [string_kind] ([chars] src.now)).unit</code>
///
/// [single]: crate::contracts#literal_escaper.Single.single
/// [string_kind]: crate::contracts#literal_escaper.Kind.string_kind
/// [chars]: crate::contracts#std.chars
pub fn unescape_char(src: &str) -> Result<char, EscapeError>
{
    let (unit, _) = unescape_single::<Str>(ContentCursor::new(src));
    unit
}

/// Returns the one byte of a byte literal's content, by the rule `single-item`, or the error in it.
///
/// For `\xFF` it returns 0xFF. `ab` is the error `MoreThanOneChar`, and `\u{41}` is `UnicodeEscapeInByte`.
///
/// # Contract
///
/// - `ensures`: <code>result ≡ ([single] [byte_kind] ([chars] src.now)).unit</code>
///
/// [single]: crate::contracts#literal_escaper.Single.single
/// [byte_kind]: crate::contracts#literal_escaper.Kind.byte_kind
/// [chars]: crate::contracts#std.chars
pub fn unescape_byte(src: &str) -> Result<u8, EscapeError>
{
    let (unit, _) = unescape_single::<Bytes>(ContentCursor::new(src));
    unit
}
