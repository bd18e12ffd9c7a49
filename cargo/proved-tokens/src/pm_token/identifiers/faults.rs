// Made from crates/pm_token/src/identifiers/faults.rt by dev/erase: change that file, not this one.
//! Tests whether a name is valid for an identifier.

use crate::lexical::is_reserved;
use crate::shim::alloc::AllocError;
use crate::shim::fmt;

/// Why a name is not valid for an identifier: the first variant that is true of the name.
#[derive(Debug, PartialEq, Eq)]
#[non_exhaustive]
pub enum IdentError {
    /// The name has no characters.
    Empty,
    /// The name has only ASCII digits, such as `255`.
    Number,
    /// The name is not a character that may begin an identifier, followed by characters that may continue one.
    /// An example is `a#`.
    Invalid,
    /// The name is `_`, `super`, `self`, `Self` or `crate`, which a raw identifier can't have.
    Reserved,
    /// Memory ran out. The name is valid.
    Memory(AllocError),
}

impl fmt::Display for IdentError {
    fn fmt<W: fmt::Write>(&self, f: &mut fmt::Formatter<W>) -> fmt::Result {
        match self {
            IdentError::Empty => f.write_str("an identifier has at least one character"),
            IdentError::Number => f.write_str("a number is no identifier"),
            IdentError::Invalid => f.write_str("not a valid identifier"),
            IdentError::Reserved => f.write_str("this name is reserved, and can't be raw"),
            IdentError::Memory(_) => f.write_str("no memory"),
        }
    }
}

crate::shim::display!(IdentError);

impl From<AllocError> for IdentError {
    fn from(error: AllocError) -> IdentError {
        IdentError::Memory(error)
    }
}

/// Returns whether the text has no characters.
fn is_empty(text: &str) -> bool
{
    text.is_empty()
}

/// Returns whether the text has only ASCII digits.
fn is_number(text: &str) -> bool
{
    text.chars().all(|c| c.is_ascii_digit())
}

/// Returns whether an identifier may begin with the character (`identifier-start`).
fn begins_name(c: char) -> bool
{
    if c != '_' && !crate::shim::unicode_ident::is_xid_start(c) {
        return false;
    }
    !c.is_whitespace() && c != '\u{200E}' && c != '\u{200F}' && c != '\u{FEFF}'
}

/// Returns whether each of the characters may continue an identifier (`identifier-continue`).
fn all_continue(text: &str) -> bool
{
    text.chars().all(|c| crate::shim::unicode_ident::is_xid_continue(c))
}

/// Returns whether the whole text is a name.
// This reads each character once, while the lexer's search for the end of a name may read some twice.
fn is_name(text: &str) -> bool
{
    let mut rest = text.chars();
    match rest.next() {
        Some(first) => begins_name(first) && all_continue(rest.as_str()),
        None => false,
    }
}

/// Returns whether the byte is an ASCII letter or `_`.
#[cfg_attr(not(debug_assertions), inline(always))]
fn begins_plain(byte: u8) -> bool
{
    byte.is_ascii_alphabetic() || byte == b'_'
}

/// Short words that make the table below a square.
const NO: bool = false;

const YES: bool = true;

/// For each byte, whether it is an ASCII letter, a digit or `_`.
#[rustfmt::skip]
static CONTINUES: [bool; 256] = [
    NO, NO, NO, NO, NO, NO, NO, NO, NO, NO, NO, NO, NO, NO, NO, NO,
    NO, NO, NO, NO, NO, NO, NO, NO, NO, NO, NO, NO, NO, NO, NO, NO,
    NO, NO, NO, NO, NO, NO, NO, NO, NO, NO, NO, NO, NO, NO, NO, NO,
    YES, YES, YES, YES, YES, YES, YES, YES, YES, YES, NO, NO, NO, NO, NO, NO,
    NO, YES, YES, YES, YES, YES, YES, YES, YES, YES, YES, YES, YES, YES, YES, YES,
    YES, YES, YES, YES, YES, YES, YES, YES, YES, YES, YES, NO, NO, NO, NO, YES,
    NO, YES, YES, YES, YES, YES, YES, YES, YES, YES, YES, YES, YES, YES, YES, YES,
    YES, YES, YES, YES, YES, YES, YES, YES, YES, YES, YES, NO, NO, NO, NO, NO,
    NO, NO, NO, NO, NO, NO, NO, NO, NO, NO, NO, NO, NO, NO, NO, NO,
    NO, NO, NO, NO, NO, NO, NO, NO, NO, NO, NO, NO, NO, NO, NO, NO,
    NO, NO, NO, NO, NO, NO, NO, NO, NO, NO, NO, NO, NO, NO, NO, NO,
    NO, NO, NO, NO, NO, NO, NO, NO, NO, NO, NO, NO, NO, NO, NO, NO,
    NO, NO, NO, NO, NO, NO, NO, NO, NO, NO, NO, NO, NO, NO, NO, NO,
    NO, NO, NO, NO, NO, NO, NO, NO, NO, NO, NO, NO, NO, NO, NO, NO,
    NO, NO, NO, NO, NO, NO, NO, NO, NO, NO, NO, NO, NO, NO, NO, NO,
    NO, NO, NO, NO, NO, NO, NO, NO, NO, NO, NO, NO, NO, NO, NO, NO,
];

/// Returns whether the byte is an ASCII letter, a digit or `_`.
#[cfg_attr(not(debug_assertions), inline(always))]
fn continues_plain(byte: u8) -> bool
{
    CONTINUES[byte as usize]
}

/// Returns how many of the first bytes are ASCII letters, digits or `_`.
#[cfg_attr(not(debug_assertions), inline(always))]
fn count_plain(bytes: &[u8]) -> usize
{
    let mut count = 0;
    while count < bytes.len() {
        if !continues_plain(bytes[count]) {
            break;
        }
        count += 1;
    }
    count
}

/// Returns whether the text is a name of ASCII letters, digits and `_`. Other names are left to `other_fault`.
#[cfg_attr(not(debug_assertions), inline(always))]
fn is_plain_name(text: &str) -> bool
{
    let Some((first, rest)) = text.as_bytes().split_first() else {
        return false;
    };
    if !begins_plain(*first) {
        return false;
    }
    count_plain(rest) == rest.len()
}

/// Returns why the name is not valid, if it isn't (`identifier-fault`).
// Most names are ASCII, and one pass over the bytes decides about these.
#[cfg_attr(not(debug_assertions), inline(always))]
pub(crate) fn fault(name: &str, raw: bool) -> Option<IdentError>
{
    if !raw && is_plain_name(name) {
        return None;
    }
    other_fault(name, raw)
}

/// Does what `fault` does, for any name.
#[inline(never)]
fn other_fault(name: &str, raw: bool) -> Option<IdentError>
{
    if !is_name(name) {
        return Some(fault_of_other(name));
    }
    if raw && is_reserved(name) {
        return Some(IdentError::Reserved);
    }
    None
}

/// Returns why a text is not a name.
fn fault_of_other(text: &str) -> IdentError
{
    if is_empty(text) {
        return IdentError::Empty;
    }
    if is_number(text) {
        return IdentError::Number;
    }
    IdentError::Invalid
}
