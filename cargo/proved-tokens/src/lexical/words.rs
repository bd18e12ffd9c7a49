// Made from crates/lexical/src/words.rt by dev/erase: change that file, not this one.
//! Counts ASCII bytes of names, strings and lines, 8 bytes at a time.

use crate::lexical::bytes::{Class, count_ascii};

/// Counts the bytes before the first one that continues no ASCII name. `None` means that all 8 continue one.
///
/// All 8 bytes are tested in one word, so there is no branch that the processor could mispredict. For each range of
/// bytes, two constants are added to the bytes without their highest bits. The first sum has the highest bit set from
/// the range's first byte on, the second only past its last byte. So the two differ in that bit exactly within the
/// range. No byte of an ASCII name has its highest bit set.
#[cfg_attr(not(debug_assertions), inline(always))]
fn count_in_word(bytes: &[u8; 8]) -> Option<usize>
{
    let word = u64::from_le_bytes(*bytes);
    let low = word & 0x7F7F_7F7F_7F7F_7F7F;
    let small = low | 0x2020_2020_2020_2020;
    let letters = (small + 0x1F1F_1F1F_1F1F_1F1F) ^ (small + 0x0505_0505_0505_0505);
    let digits = (low + 0x5050_5050_5050_5050) ^ (low + 0x4646_4646_4646_4646);
    let underscores = (low + 0x2121_2121_2121_2121) ^ (low + 0x2020_2020_2020_2020);
    let stops = (!(letters ^ digits ^ underscores) | word) & 0x8080_8080_8080_8080;
    if stops == 0 {
        return None;
    }
    Some((stops.trailing_zeros() / 8) as usize)
}

/// Counts the bytes before the first one that continues no ASCII name.
///
/// # Contract
///
/// - `ensures`: <code>result ≡ [length] ([while_front] ([ascii_in] IdentifierContinue) bytes.now)</code>
///
/// [length]: crate::contracts#std.length
/// [while_front]: crate::contracts#lexical.Finder.while_front
/// [ascii_in]: crate::contracts#lexical.Bytes.ascii_in
#[cfg_attr(not(debug_assertions), inline(always))]
pub fn count_name(bytes: &[u8]) -> usize
{
    let mut count = 0;
    while let Some(word) = bytes[count..].first_chunk::<8>() {
        if let Some(more) = count_in_word(word) {
            return count + more;
        }
        count += 8;
    }
    count + count_ascii(&bytes[count..], Class::IdentifierContinue)
}

/// Counts the bytes before the first one that is past ASCII, a quote, a backslash or a CR. `None` means that all 8 come
/// before it.
///
/// A sum sets the highest bit of each byte except those that are looked for.
#[cfg_attr(not(debug_assertions), inline(always))]
fn count_plain_in_word(bytes: &[u8; 8]) -> Option<usize>
{
    let word = u64::from_le_bytes(*bytes);
    let low = word & 0x7F7F_7F7F_7F7F_7F7F;
    let quotes = (low ^ 0x2222_2222_2222_2222) + 0x7F7F_7F7F_7F7F_7F7F;
    let backslashes = (low ^ 0x5C5C_5C5C_5C5C_5C5C) + 0x7F7F_7F7F_7F7F_7F7F;
    let returns = (low ^ 0x0D0D_0D0D_0D0D_0D0D) + 0x7F7F_7F7F_7F7F_7F7F;
    let hits = (!(quotes & backslashes & returns) | word) & 0x8080_8080_8080_8080;
    if hits == 0 {
        return None;
    }
    Some((hits.trailing_zeros() / 8) as usize)
}

/// Counts the bytes before the first one that is past ASCII, a quote, a backslash or a CR, byte by byte.
#[cfg_attr(not(debug_assertions), inline(always))]
fn count_plain_bytes(bytes: &[u8]) -> usize
{
    let mut count = 0;
    while count < bytes.len() {
        let byte = bytes[count];
        if !byte.is_ascii() || byte == b'"' || byte == b'\\' || byte == b'\r' {
            break;
        }
        count += 1;
    }
    count
}

/// Counts the bytes before the first one that is past ASCII, a quote, a backslash or a CR, 8 bytes at a time.
///
/// # Contract
///
/// - `ensures`: <code>[IsTrue] ([list_all] [is_plain_ascii] ([take] result bytes.now))</code>
///
/// [IsTrue]: crate::contracts#std.IsTrue
/// [list_all]: crate::contracts#std.list_all
/// [is_plain_ascii]: crate::contracts#lexical.MachineWord.is_plain_ascii
/// [take]: crate::contracts#std.take
#[cfg_attr(not(debug_assertions), inline(always))]
pub fn count_plain(bytes: &[u8]) -> usize
{
    let mut size = 0;
    while let Some(word) = bytes[size..].first_chunk::<8>() {
        if let Some(more) = count_plain_in_word(word) {
            return size + more;
        }
        size += 8;
    }
    size + count_plain_bytes(&bytes[size..])
}

/// Counts like [`count_plain`], but only in the first 8 bytes. It needs fewer registers.
///
/// # Contract
///
/// - `ensures`: <code>[IsTrue] ([list_all] [is_plain_ascii] ([take] result bytes.now))</code>
///
/// [IsTrue]: crate::contracts#std.IsTrue
/// [list_all]: crate::contracts#std.list_all
/// [is_plain_ascii]: crate::contracts#lexical.MachineWord.is_plain_ascii
/// [take]: crate::contracts#std.take
#[cfg_attr(not(debug_assertions), inline(always))]
pub fn count_few_plain(bytes: &[u8]) -> usize
{
    match bytes.first_chunk::<8>() {
        Some(word) => count_plain_in_word(word).unwrap_or(8),
        None => count_plain_bytes(bytes),
    }
}

/// Counts the bytes before the first one that is past ASCII, a LF or a CR. `None` means that all 8 come before it.
///
/// A sum sets the highest bit of each byte except those that are looked for.
#[cfg_attr(not(debug_assertions), inline(always))]
fn count_line_in_word(bytes: &[u8; 8]) -> Option<usize>
{
    let word = u64::from_le_bytes(*bytes);
    let low = word & 0x7F7F_7F7F_7F7F_7F7F;
    let feeds = (low ^ 0x0A0A_0A0A_0A0A_0A0A) + 0x7F7F_7F7F_7F7F_7F7F;
    let returns = (low ^ 0x0D0D_0D0D_0D0D_0D0D) + 0x7F7F_7F7F_7F7F_7F7F;
    let ends = (!(feeds & returns) | word) & 0x8080_8080_8080_8080;
    if ends == 0 {
        return None;
    }
    Some((ends.trailing_zeros() / 8) as usize)
}

/// Counts the bytes before the first one that is past ASCII, a LF or a CR, byte by byte.
#[cfg_attr(not(debug_assertions), inline(always))]
fn count_line_bytes(bytes: &[u8]) -> usize
{
    let mut count = 0;
    while count < bytes.len() {
        let byte = bytes[count];
        if !byte.is_ascii() || byte == b'\n' || byte == b'\r' {
            break;
        }
        count += 1;
    }
    count
}

/// Counts the bytes before the first one that is past ASCII, a LF or a CR, 8 bytes at a time.
///
/// # Contract
///
/// - `ensures within`: <code>result ≤ [length] bytes.now</code>
/// - `ensures plain`: <code>[IsTrue] ([list_all] [is_line_ascii] ([take] result bytes.now))</code>
///
/// [length]: crate::contracts#std.length
/// [IsTrue]: crate::contracts#std.IsTrue
/// [list_all]: crate::contracts#std.list_all
/// [is_line_ascii]: crate::contracts#lexical.MachineWord.is_line_ascii
/// [take]: crate::contracts#std.take
#[cfg_attr(not(debug_assertions), inline(always))]
pub fn count_line(bytes: &[u8]) -> usize
{
    let mut end = 0;
    while let Some(word) = bytes[end..].first_chunk::<8>() {
        if let Some(more) = count_line_in_word(word) {
            return end + more;
        }
        end += 8;
    }
    end + count_line_bytes(&bytes[end..])
}
