// Made from crates/pm_span/src/plain.rt by dev/erase: change that file, not this one.
//! Counts plain bytes, which are ASCII but no line feed, in words of 8 bytes.

/// Returns how many plain bytes the 8 bytes begin with, or `None` if all 8 are plain.
///
/// All 8 are tested in one word. `^` turns a line feed into 0, and `&` clears each highest bit. Then the addition
/// sets the highest bit of each byte that isn't 0.
#[cfg_attr(not(debug_assertions), inline(always))]
fn count_in_word(bytes: &[u8; 8]) -> Option<usize>
{
    let word = u64::from_le_bytes(*bytes);
    let turned = (word ^ 0x0A0A_0A0A_0A0A_0A0A) & 0x7F7F_7F7F_7F7F_7F7F;
    let stops = (!(turned + 0x7F7F_7F7F_7F7F_7F7F) | word) & 0x8080_8080_8080_8080;
    if stops == 0 {
        return None;
    }
    Some((stops.trailing_zeros() / 8) as usize)
}

/// Returns how many plain bytes the text begins with, one byte at a time.
#[cfg_attr(not(debug_assertions), inline(always))]
fn count_by_bytes(bytes: &[u8]) -> usize
{
    let mut count = 0;
    while count < bytes.len() && bytes[count] < 128 && bytes[count] != b'\n' {
        count += 1;
    }
    count
}

/// Returns how many plain bytes the text begins with.
#[cfg_attr(not(debug_assertions), inline(always))]
pub(crate) fn count_plain(bytes: &[u8]) -> usize
{
    let mut count = 0;
    let mut rest = bytes;
    while let Some((word, after)) = rest.split_first_chunk::<8>() {
        if let Some(more) = count_in_word(word) {
            return count + more;
        }
        count += 8;
        rest = after;
    }
    count + count_by_bytes(rest)
}
