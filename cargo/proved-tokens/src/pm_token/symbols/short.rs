// Made from crates/pm_token/src/symbols/short.rt by dev/erase: change that file, not this one.
//! Short texts, which are kept in place.

#![allow(unsafe_code)]

use crate::shim::itoa::write_digits;
use crate::shim::str;

/// The largest number of bytes in a short text. With its length and the tag of an enum it is as long as three
/// pointers.
pub(crate) const ROOM: usize = 22;

/// A text of at most 22 bytes. The bytes after it are zero, so that texts can be compared as whole words.
pub(crate) struct Short {
    len: u8,
    bytes: [u8; ROOM],
}

impl Short {
    /// Copies the text.
    #[cfg_attr(not(debug_assertions), inline(always))]
    pub(crate) fn new(text: &str) -> Short
    {
        let mut bytes = [0; ROOM];
        bytes[..text.len()].copy_from_slice(text.as_bytes());
        Short {
            len: text.len() as u8,
            bytes,
        }
    }

    /// Copies both texts, one after the other.
    #[cfg_attr(not(debug_assertions), inline(always))]
    pub(crate) fn concatenation(front: &str, back: &str) -> Short
    {
        let end = front.len() + back.len();
        let mut bytes = [0; ROOM];
        bytes[..front.len()].copy_from_slice(front.as_bytes());
        bytes[front.len()..end].copy_from_slice(back.as_bytes());
        Short {
            len: end as u8,
            bytes,
        }
    }

    /// Returns a number in decimal digits, after a `-` if it is negative, joined with `suffix`; `None` if this
    /// is too long.
    #[cfg_attr(not(debug_assertions), inline(always))]
    pub(crate) fn number(negative: bool, value: u64, suffix: &str) -> Option<Short>
    {
        let start = usize::from(negative);
        let digits_end = start + count_digits(value);
        if suffix.len() > ROOM - digits_end {
            return None;
        }
        let end = digits_end + suffix.len();
        let mut bytes = [0; ROOM];
        // If the number has no `-`, its first digit overwrites this byte.
        bytes[0] = b'-';
        write_digits(value, &mut bytes, digits_end);
        bytes[digits_end..end].copy_from_slice(suffix.as_bytes());
        Some(Short {
            len: end as u8,
            bytes,
        })
    }

    /// Returns whether both texts are the same.
    #[cfg_attr(not(debug_assertions), inline(always))]
    pub(crate) fn same(&self, other: &Short) -> bool
    {
        self.len == other.len && self.bytes == other.bytes
    }

    /// Returns the bytes of the text.
    #[cfg_attr(not(debug_assertions), inline(always))]
    pub(crate) fn as_bytes(&self) -> &[u8]
    {
        &self.bytes[..self.len as usize]
    }

    /// Returns the text.
    #[cfg_attr(not(debug_assertions), inline(always))]
    pub(crate) fn as_str(&self) -> &str
    {
        // By the invariant the bytes are UTF-8, so this need not be tested again.
        unsafe { str::from_utf8_unchecked(&self.bytes[..self.len as usize]) }
    }

    /// Removes the `-` that the text begins with, and returns whether there was one.
    pub(crate) fn strip_minus(&mut self) -> bool
    {
        let Some(rest) = past_minus(self.as_str()) else {
            return false;
        };
        *self = Short::new(rest);
        true
    }

    /// Copies the text.
    #[cfg_attr(not(debug_assertions), inline(always))]
    pub(crate) fn copy(&self) -> Short
    {
        Short {
            len: self.len,
            bytes: self.bytes,
        }
    }
}

/// Returns how many decimal digits the number has.
#[cfg_attr(not(debug_assertions), inline(always))]
fn count_digits(value: u64) -> usize
{
    if value == 0 {
        return 1;
    }
    value.ilog10() as usize + 1
}

/// Returns the text after the `-` that it begins with, or `None` if it begins otherwise.
fn past_minus(text: &str) -> Option<&str>
{
    let mut rest = text.chars();
    match rest.next() {
        Some('-') => Some(rest.as_str()),
        _ => None,
    }
}
