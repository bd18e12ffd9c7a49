// Made from crates/literal_escaper/src/check.rt by dev/erase: change that file, not this one.
//! Finds the errors in the content of a literal.

use crate::literal_escaper::content_cursor::ContentCursor;
use crate::literal_escaper::cooked::{Cooked, next_item};
use crate::literal_escaper::errors::EscapeError;
use crate::literal_escaper::kind::{Bytes, CStr, CheckRaw, Str, Unescape};
use crate::literal_escaper::mode::Mode;
use crate::literal_escaper::raw::next_raw_item;
use crate::literal_escaper::single::unescape_single;
use crate::shim::ops::Range;

/// Returns the error of a content that must be one unit, if it has one.
fn error_of_single<K: Unescape>(src: &str) -> Option<(Range<usize>, EscapeError)>
{
    let (unit, end) = unescape_single::<K>(ContentCursor::new(src));
    match unit {
        Ok(_) => None,
        Err(e) => Some((0..end.byte_offset(), e)),
    }
}

/// Returns the next error of a content with escapes.
fn next_error<K: Unescape>(content: &mut Cooked<'_>) -> Option<(Range<usize>, EscapeError)>
{
    while let Some((range, unit)) = next_item::<K>(content) {
        if let Err(e) = unit {
            return Some((range, e));
        }
    }
    None
}

/// Returns the next error of a raw content.
fn next_raw_error<K: CheckRaw>(
    cursor: &mut ContentCursor<'_>,
) -> Option<(Range<usize>, EscapeError)>
{
    while let Some((range, unit)) = next_raw_item::<K>(cursor) {
        if let Err(e) = unit {
            return Some((range, e));
        }
    }
    None
}

/// An iterator over the errors and warnings of a content. [`check_for_errors`] makes one.
pub struct CheckForErrors<'a> {
    mode: Mode,
    single: Option<(Range<usize>, EscapeError)>,
    content: Cooked<'a>,
}

impl Iterator for CheckForErrors<'_> {
    type Item = (Range<usize>, EscapeError);

    fn next(&mut self) -> Option<(Range<usize>, EscapeError)> {
        match self.mode {
            Mode::Char | Mode::Byte => self.single.take(),
            Mode::Str => next_error::<Str>(&mut self.content),
            Mode::RawStr => next_raw_error::<Str>(&mut self.content.cursor),
            Mode::ByteStr => next_error::<Bytes>(&mut self.content),
            Mode::RawByteStr => next_raw_error::<Bytes>(&mut self.content.cursor),
            Mode::CStr => next_error::<CStr>(&mut self.content),
            Mode::RawCStr => next_raw_error::<CStr>(&mut self.content.cursor),
        }
    }
}

impl<'a> CheckForErrors<'a> {
    /// Returns an iterator over the errors of the whole content.
    fn new(src: &'a str, mode: Mode) -> Self
    {
        let single = match mode {
            Mode::Char => error_of_single::<Str>(src),
            Mode::Byte => error_of_single::<Bytes>(src),
            _ => None,
        };
        CheckForErrors {
            mode,
            single,
            content: Cooked::new(src),
        }
    }
}

/// Returns the errors and warnings of a content of this kind in order, by the rule `content-errors`.
///
/// Each has its range of bytes in the content. For a character or a byte there is at most one. Its range begins at the
/// start of the content and ends after the last character that was read.
///
/// As a character, `abc` has the error `MoreThanOneChar` at 0..2. As a string, `a"` has the error `EscapeOnlyChar` at
/// 1..2; as a raw string it has none.
///
/// # Contract
///
/// - `ensures value`: <code>result ≡ [errors_in] mode ([chars] src.now)</code>
/// - `ensures within`: <code>[AreWithin] src.now result</code>
///
/// [errors_in]: crate::contracts#literal_escaper.Errors.errors_in
/// [chars]: crate::contracts#std.chars
/// [AreWithin]: crate::contracts#literal_escaper.Within.AreWithin
pub fn check_for_errors(src: &str, mode: Mode) -> CheckForErrors<'_>
{
    CheckForErrors::new(src, mode)
}
