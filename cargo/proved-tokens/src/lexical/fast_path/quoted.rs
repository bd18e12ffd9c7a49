// Made from crates/lexical/src/fast_path/quoted.rt by dev/erase: change that file, not this one.
//! Literals between quotes that a few bytes decide.

use crate::lexical::bytes::{Base, Class, count_ascii, holds_ascii};
use crate::lexical::escapes::{is_letter, writes_character};
use crate::lexical::fast_path::{Extent, ascii_extent, byte_at, count_extent};
use crate::lexical::quoted::StringKind;
use crate::lexical::single_quotes::stands_bare;
use crate::lexical::text::{split_first, strip};
use crate::shim::memchr::memchr3;

/// Whether a literal between quotes ends before this byte and has no suffix.
#[cfg_attr(not(debug_assertions), inline(always))]
fn ends_literal(byte: u8) -> bool
{
    byte.is_ascii() && !holds_ascii(Class::IdentifierStart, byte)
}

/// Whether the byte may be the first of the two digits after `\x`. It returns false for C strings, where two zeros are
/// forbidden: the slower functions read those.
#[cfg_attr(not(debug_assertions), inline(always))]
fn begins_pair(byte: u8, kind: StringKind) -> bool
{
    match kind {
        StringKind::Plain => holds_ascii(Class::DigitOf(Base::Octal), byte),
        StringKind::Byte => holds_ascii(Class::HexDigit, byte),
        StringKind::C => false,
    }
}

/// Returns how many bytes `x` and its two digits at the start have, by the rule `hex-escape`.
#[cfg_attr(not(debug_assertions), inline(always))]
fn hex_size(bytes: &[u8], kind: StringKind) -> Option<usize>
{
    if byte_at(bytes, 0) == b'x'
        && begins_pair(byte_at(bytes, 1), kind)
        && holds_ascii(Class::HexDigit, byte_at(bytes, 2))
    {
        Some(3)
    } else {
        None
    }
}

/// Returns how many bytes `u{`, the code of a character and `}` at the start have, by the rule `unicode-escape`.
#[inline(never)]
fn unicode_size(bytes: &[u8], kind: StringKind) -> Option<usize>
{
    if byte_at(bytes, 0) != b'u' || byte_at(bytes, 1) != b'{' {
        return None;
    }
    let code = &bytes[2..];
    if !holds_ascii(Class::HexDigit, byte_at(code, 0)) {
        return None;
    }
    let digits = count_ascii(code, Class::CodeDigit);
    if byte_at(code, digits) != b'}' || !writes_character(&code[..digits], kind) {
        return None;
    }
    Some(digits + 3)
}

/// Returns how many bytes the escape of one letter has, without its backslash.
#[cfg_attr(not(debug_assertions), inline(always))]
fn letter_size(bytes: &[u8], kind: StringKind) -> Option<usize>
{
    let first = byte_at(bytes, 0);
    if first.is_ascii() && is_letter(first as char, kind) {
        return Some(1);
    }
    None
}

/// Returns how many bytes the escape at the start has, without its backslash.
#[cfg_attr(not(debug_assertions), inline(always))]
fn escape_size(bytes: &[u8], kind: StringKind) -> Option<usize>
{
    if let Some(size) = letter_size(bytes, kind) {
        return Some(size);
    }
    match hex_size(bytes, kind) {
        Some(size) => Some(size),
        None => unicode_size(bytes, kind),
    }
}

/// Returns how many bytes a literal between single quotes has after its first quote, if it holds one ASCII character
/// that is no escape.
#[cfg_attr(not(debug_assertions), inline(always))]
fn bare_size(inside: &[u8], kind: StringKind) -> Option<usize>
{
    let byte = byte_at(inside, 0);
    if byte.is_ascii()
        && byte_at(inside, 1) == b'\''
        && stands_bare(byte as char, kind)
        && ends_literal(byte_at(inside, 2))
    {
        return Some(2);
    }
    None
}

/// Returns how many bytes a literal between single quotes has after its first quote, if it holds a backslash and a
/// letter.
#[cfg_attr(not(debug_assertions), inline(always))]
fn backslash_size(inside: &[u8], kind: StringKind) -> Option<usize>
{
    if byte_at(inside, 0) != b'\\' {
        return None;
    }
    let unit = letter_size(&inside[1..], kind)? + 1;
    if byte_at(inside, unit) == b'\'' && ends_literal(byte_at(inside, unit + 1)) {
        return Some(unit + 1);
    }
    None
}

/// Returns how many bytes a literal between single quotes has after its first quote, if it holds one ASCII character or
/// an escape.
#[cfg_attr(not(debug_assertions), inline(always))]
fn single_size(inside: &[u8], kind: StringKind) -> Option<usize>
{
    if byte_at(inside, 0) != b'\\' {
        return bare_size(inside, kind);
    }
    let unit = escape_size(&inside[1..], kind)? + 1;
    if byte_at(inside, unit) == b'\'' && ends_literal(byte_at(inside, unit + 1)) {
        return Some(unit + 1);
    }
    None
}

/// Returns how many bytes the character literal at the start has, if it holds one ASCII character or an escape.
///
/// # Contract
///
/// - `ensures`: <code>[IfSome] result ([IsAsciiAt] [Character] text.now)</code>
///
/// [IfSome]: crate::contracts#std.IfSome
/// [IsAsciiAt]: crate::contracts#lexical.Quick.IsAsciiAt
/// [Character]: crate::contracts#lexical.SingleQuoted.Character
#[cfg_attr(not(debug_assertions), inline(always))]
pub fn character_size(text: &str) -> Option<usize>
{
    let bytes = text.as_bytes();
    if byte_at(bytes, 0) != b'\'' {
        return None;
    }
    Some(single_size(&bytes[1..], StringKind::Plain)? + 1)
}

/// Returns the extent of the character literal at the start, if it holds one ASCII character that is no escape.
///
/// # Contract
///
/// - `ensures`: <code>[IfSome] result ([IsLiteralAt] ([chars] text.now))</code>
///
/// [IfSome]: crate::contracts#std.IfSome
/// [IsLiteralAt]: crate::contracts#lexical.Quick.IsLiteralAt
/// [chars]: crate::contracts#std.chars
#[cfg_attr(not(debug_assertions), inline(always))]
pub fn bare_character(text: &str) -> Option<Extent>
{
    let bytes = text.as_bytes();
    if byte_at(bytes, 0) != b'\'' {
        return None;
    }
    let size = bare_size(&bytes[1..], StringKind::Plain)?;
    Some(ascii_extent(size + 1))
}

/// Returns the extent of the character literal at the start, if it holds a backslash and a letter.
///
/// # Contract
///
/// - `ensures`: <code>[IfSome] result ([IsLiteralAt] ([chars] text.now))</code>
///
/// [IfSome]: crate::contracts#std.IfSome
/// [IsLiteralAt]: crate::contracts#lexical.Quick.IsLiteralAt
/// [chars]: crate::contracts#std.chars
#[cfg_attr(not(debug_assertions), inline(always))]
pub fn letter_character(text: &str) -> Option<Extent>
{
    let bytes = text.as_bytes();
    if byte_at(bytes, 0) != b'\'' {
        return None;
    }
    let size = backslash_size(&bytes[1..], StringKind::Plain)?;
    Some(ascii_extent(size + 1))
}

/// Returns the extent of the character literal at the start, if it holds one ASCII character or an escape.
///
/// # Contract
///
/// - `ensures`: <code>[IfSome] result ([IsLiteralAt] ([chars] text.now))</code>
///
/// [IfSome]: crate::contracts#std.IfSome
/// [IsLiteralAt]: crate::contracts#lexical.Quick.IsLiteralAt
/// [chars]: crate::contracts#std.chars
#[cfg_attr(not(debug_assertions), inline(always))]
pub fn character(text: &str) -> Option<Extent>
{
    Some(ascii_extent(character_size(text)?))
}

/// Returns how many bytes the byte literal at the start has.
///
/// # Contract
///
/// - `ensures`: <code>[IfSome] result ([IsAsciiAt] [Byte] text.now)</code>
///
/// [IfSome]: crate::contracts#std.IfSome
/// [IsAsciiAt]: crate::contracts#lexical.Quick.IsAsciiAt
/// [Byte]: crate::contracts#lexical.SingleQuoted.Byte
#[cfg_attr(not(debug_assertions), inline(always))]
pub fn byte_size(text: &str) -> Option<usize>
{
    let bytes = text.as_bytes();
    if byte_at(bytes, 0) != b'b' || byte_at(bytes, 1) != b'\'' {
        return None;
    }
    Some(single_size(&bytes[2..], StringKind::Byte)? + 2)
}

/// Returns the extent of the character literal at the start, if it holds one character that is no escape, past ASCII
/// too.
///
/// # Contract
///
/// - `ensures`: <code>[IfSome] result ([IsLiteralAt] ([chars] text.now))</code>
///
/// [IfSome]: crate::contracts#std.IfSome
/// [IsLiteralAt]: crate::contracts#lexical.Quick.IsLiteralAt
/// [chars]: crate::contracts#std.chars
#[cfg_attr(not(debug_assertions), inline(always))]
pub fn wide_character(text: &str) -> Option<Extent>
{
    let (quote, inside) = split_first(text)?;
    let (c, after) = split_first(inside)?;
    let rest = strip(after, "'")?;
    if quote != '\''
        || !stands_bare(c, StringKind::Plain)
        || !ends_literal(byte_at(rest.as_bytes(), 0))
    {
        return None;
    }
    let bytes = text.len() - rest.len();
    Some(Extent { bytes, chars: 3 })
}

/// Returns how many bytes follow a backslash in a string: a LF or an escape.
#[cfg_attr(not(debug_assertions), inline(always))]
fn escaped_size(bytes: &[u8], kind: StringKind) -> Option<usize>
{
    if byte_at(bytes, 0) == b'\n' {
        return Some(1);
    }
    escape_size(bytes, kind)
}

/// Whether a string of the kind may contain each character of the bytes. It returns false for C strings, where zeros
/// are forbidden: the slower functions read those.
#[cfg_attr(not(debug_assertions), inline(always))]
fn may_hold(stretch: &[u8], kind: StringKind) -> bool
{
    match kind {
        StringKind::Plain => true,
        StringKind::Byte => stretch.is_ascii(),
        StringKind::C => false,
    }
}

/// Returns how many bytes come before the first quote, backslash or CR, or `None` if there is none.
#[cfg_attr(not(debug_assertions), inline(always))]
fn plain_size(bytes: &[u8]) -> Option<usize>
{
    // Often a quote or an escape follows at once.
    let next = byte_at(bytes, 0);
    if next == b'"' || next == b'\\' {
        return Some(0);
    }
    memchr3(b'"', b'\\', b'\r', bytes)
}

/// Returns how many bytes come before the first quote, backslash or CR, if a string of the kind may contain them all.
#[cfg_attr(not(debug_assertions), inline(always))]
fn stretch_size(bytes: &[u8], kind: StringKind) -> Option<usize>
{
    let size = plain_size(bytes)?;
    if may_hold(&bytes[..size], kind) {
        Some(size)
    } else {
        None
    }
}

/// Returns how many bytes a string has after its first quote, if it has no CR. `inside` is the text after that quote,
/// and `stretch` is the number of bytes in it before the first quote, backslash or CR.
///
/// Quotes, backslashes and CR are searched for among the bytes. The search goes on after each escape, so it passes the
/// string once.
#[cfg_attr(not(debug_assertions), inline(always))]
fn body_size(inside: &str, stretch: usize, kind: StringKind) -> Option<usize>
{
    let bytes = inside.as_bytes();
    let mut size = stretch;
    while bytes[size] == b'\\' {
        size += 1;
        size += escaped_size(&bytes[size..], kind)?;
        size += stretch_size(&bytes[size..], kind)?;
    }
    if bytes[size] == b'"' && ends_literal(byte_at(bytes, size + 1)) {
        return Some(size + 1);
    }
    None
}

/// Returns the extent of a string of `stretch` ASCII bytes that are no escapes. `inside` is the text after its first
/// quote.
///
/// # Contract
///
/// - `requires`: <code>[IsTrue] ([list_all] [is_plain_ascii] ([take] stretch inside.now))</code>
/// - `ensures`: <code>(text : [List] ℕ) → [chars] text ≡ [codes] \"\\\"\" ++ [chars] inside.now → [IfSome]
///   result ([IsLiteralAt] ([chars] text))</code>
///
/// [IsTrue]: crate::contracts#std.IsTrue
/// [list_all]: crate::contracts#std.list_all
/// [is_plain_ascii]: crate::contracts#lexical.MachineWord.is_plain_ascii
/// [take]: crate::contracts#std.take
/// [List]: crate::contracts#std.List
/// [chars]: crate::contracts#std.chars
/// [codes]: crate::contracts#std.codes
/// [IfSome]: crate::contracts#std.IfSome
/// [IsLiteralAt]: crate::contracts#lexical.Quick.IsLiteralAt
#[cfg_attr(not(debug_assertions), inline(always))]
pub fn plain_string(inside: &str, stretch: usize) -> Option<Extent>
{
    let bytes = inside.as_bytes();
    if byte_at(bytes, stretch) == b'"' && ends_literal(byte_at(bytes, stretch + 1)) {
        return Some(ascii_extent(stretch + 2));
    }
    None
}

/// Returns the extent of the string at the start of `text`, which has `stretch` ASCII bytes before its first escape.
/// `inside` is the text after its first quote.
///
/// # Contract
///
/// - `requires split`: <code>[chars] text.now ≡ [codes] \"\\\"\" ++ [chars] inside.now</code>
/// - `requires plain`: <code>[IsTrue] ([list_all] [is_plain_ascii] ([take] stretch inside.now))</code>
/// - `requires backslash`: <code>[get_or] inside.now stretch 32 ≡ [backslash]</code>
/// - `ensures`: <code>[IfSome] result ([IsLiteralAt] ([chars] text.now))</code>
///
/// [chars]: crate::contracts#std.chars
/// [codes]: crate::contracts#std.codes
/// [IsTrue]: crate::contracts#std.IsTrue
/// [list_all]: crate::contracts#std.list_all
/// [is_plain_ascii]: crate::contracts#lexical.MachineWord.is_plain_ascii
/// [take]: crate::contracts#std.take
/// [get_or]: crate::contracts#std.get_or
/// [backslash]: crate::contracts#lexical.Character.backslash
/// [IfSome]: crate::contracts#std.IfSome
/// [IsLiteralAt]: crate::contracts#lexical.Quick.IsLiteralAt
#[cfg_attr(not(debug_assertions), inline(always))]
pub fn escaped_string(text: &str, inside: &str, stretch: usize) -> Option<Extent>
{
    let size = body_size(inside, stretch, StringKind::Plain)?;
    Some(count_extent(text, size + 1))
}

/// Returns the extent of the string at the start, if it has no CR.
///
/// # Contract
///
/// - `ensures`: <code>[IfSome] result ([IsLiteralAt] ([chars] text.now))</code>
///
/// [IfSome]: crate::contracts#std.IfSome
/// [IsLiteralAt]: crate::contracts#lexical.Quick.IsLiteralAt
/// [chars]: crate::contracts#std.chars
#[cfg_attr(not(debug_assertions), inline(always))]
pub fn string(text: &str) -> Option<Extent>
{
    let inside = strip(text, "\"")?;
    let stretch = memchr3(b'"', b'\\', b'\r', inside.as_bytes())?;
    let size = body_size(inside, stretch, StringKind::Plain)?;
    Some(count_extent(text, size + 1))
}

/// Returns how many bytes the string at the start has, if it has no CR.
///
/// # Contract
///
/// - `ensures`: <code>[IfSome] result ([IsAt] [Str] ([chars] text.now))</code>
///
/// [IfSome]: crate::contracts#std.IfSome
/// [IsAt]: crate::contracts#lexical.Found.IsAt
/// [Str]: crate::contracts#lexical.Quoted.Str
/// [chars]: crate::contracts#std.chars
#[cfg_attr(not(debug_assertions), inline(always))]
pub fn string_size(text: &str) -> Option<usize>
{
    let inside = strip(text, "\"")?;
    let stretch = memchr3(b'"', b'\\', b'\r', inside.as_bytes())?;
    Some(body_size(inside, stretch, StringKind::Plain)? + 1)
}

/// Returns how many bytes the byte string at the start has, if it has no CR.
///
/// # Contract
///
/// - `ensures`: <code>[IfSome] result ([IsAt] [ByteStr] ([chars] text.now))</code>
///
/// [IfSome]: crate::contracts#std.IfSome
/// [IsAt]: crate::contracts#lexical.Found.IsAt
/// [ByteStr]: crate::contracts#lexical.Quoted.ByteStr
/// [chars]: crate::contracts#std.chars
#[cfg_attr(not(debug_assertions), inline(always))]
pub fn byte_string_size(text: &str) -> Option<usize>
{
    let inside = strip(text, "b\"")?;
    let stretch = stretch_size(inside.as_bytes(), StringKind::Byte)?;
    Some(body_size(inside, stretch, StringKind::Byte)? + 2)
}
