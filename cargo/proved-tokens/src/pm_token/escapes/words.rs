// Made from crates/pm_token/src/escapes/words.rt by dev/erase: change that file, not this one.
//! Counts the first bytes of a text that need no escape in a string, in words of 8 bytes.

use crate::pm_token::escapes::count_by_bytes;

/// Returns how many of the first bytes need no escape between double quotes, or `None` if no byte needs one.
///
/// All 8 are tested in one word, without their highest bits. Each addition sets that bit again unless the byte
/// is one that it looks for: a control character, DEL, a backslash or a quote.
#[cfg_attr(not(debug_assertions), inline(always))]
fn count_in_word(bytes: &[u8; 8]) -> Option<usize>
{
    let word = u64::from_le_bytes(*bytes);
    let low = word & 0x7F7F_7F7F_7F7F_7F7F;
    let controls = low + 0x6060_6060_6060_6060;
    let deletes = (low ^ 0x7F7F_7F7F_7F7F_7F7F) + 0x7F7F_7F7F_7F7F_7F7F;
    let backslashes = (low ^ 0x5C5C_5C5C_5C5C_5C5C) + 0x7F7F_7F7F_7F7F_7F7F;
    let quotes = (low ^ 0x2222_2222_2222_2222) + 0x7F7F_7F7F_7F7F_7F7F;
    let stops = (!(controls & deletes & backslashes & quotes) | word) & 0x8080_8080_8080_8080;
    if stops == 0 {
        return None;
    }
    Some((stops.trailing_zeros() / 8) as usize)
}

/// Returns how many of the first bytes are ASCII characters that need no escape between double quotes.
pub(crate) fn count_in_string(bytes: &[u8]) -> usize
{
    let mut count = 0;
    while let Some(word) = bytes[count..].first_chunk::<8>() {
        if let Some(more) = count_in_word(word) {
            return count + more;
        }
        count += 8;
    }
    count + count_by_bytes(&bytes[count..], '"')
}
