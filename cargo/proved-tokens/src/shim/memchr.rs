//! Searches for one of a few bytes, eight bytes at a time.

/// The lowest bit of each byte of a word.
const LOWEST: u64 = 0x0101_0101_0101_0101;
/// The highest bit of each byte of a word.
const HIGHEST: u64 = 0x8080_8080_8080_8080;

/// Contract: the first index at which the byte stands, or `None`.
#[inline]
pub fn memchr(a: u8, bytes: &[u8]) -> Option<usize> {
    find(bytes, |word| hits(word, a), |byte| byte == a)
}

/// Contract: the first index at which one of the two stands, or `None`.
#[inline]
pub fn memchr2(a: u8, b: u8, bytes: &[u8]) -> Option<usize> {
    find(bytes, |word| hits(word, a) | hits(word, b), |byte| byte == a || byte == b)
}

/// Contract: the first index at which one of the three stands, or `None`.
#[inline]
pub fn memchr3(a: u8, b: u8, c: u8, bytes: &[u8]) -> Option<usize> {
    find(
        bytes,
        |word| hits(word, a) | hits(word, b) | hits(word, c),
        |byte| byte == a || byte == b || byte == c,
    )
}

/// Searches for several bytes one after another.
pub mod memmem {
    /// Contract: the first index at which the needle's bytes stand, or `None`.
    pub fn find(haystack: &[u8], needle: &[u8]) -> Option<usize> {
        let Some((first, rest)) = needle.split_first() else {
            return Some(0);
        };
        let mut index = 0;
        loop {
            index += super::memchr(*first, &haystack[index..])?;
            if haystack[index + 1..].starts_with(rest) {
                return Some(index);
            }
            index += 1;
        }
    }
}

/// The highest bit of each byte of the word that is this one. A byte after the lowest of them may be marked wrongly.
#[inline(always)]
fn hits(word: u64, byte: u8) -> u64 {
    let apart = word ^ (LOWEST * u64::from(byte));
    apart.wrapping_sub(LOWEST) & !apart & HIGHEST
}

/// The first index that passes. `marks` marks the first byte that passes, if there is one, in a word.
#[inline(always)]
fn find(bytes: &[u8], marks: impl Fn(u64) -> u64, passes: impl Fn(u8) -> bool) -> Option<usize> {
    let mut words = bytes.chunks_exact(8);
    for (number, chunk) in words.by_ref().enumerate() {
        let mut word = [0; 8];
        word.copy_from_slice(chunk);
        let marked = marks(u64::from_le_bytes(word));
        if marked != 0 {
            return Some(8 * number + marked.trailing_zeros() as usize / 8);
        }
    }
    let rest = words.remainder();
    let index = rest.iter().position(|byte| passes(*byte))?;
    Some(bytes.len() - rest.len() + index)
}

#[cfg(test)]
mod tests {
    use super::*;

    /// Texts of up to 20 bytes out of a few that are near each other or past ASCII, by a small generator.
    fn texts() -> impl Iterator<Item = Vec<u8>> {
        let mut state = 1_u32;
        (0..20_000).map(move |number| {
            (0..number % 21)
                .map(|_| {
                    state = state.wrapping_mul(1_664_525).wrapping_add(1_013_904_223);
                    b"\x00\x01\x21\x22\x23\x7F\x80\x81\xA2\xFF"[(state >> 16) as usize % 10]
                })
                .collect()
        })
    }

    #[test]
    fn the_first_index_is_found() {
        for text in texts() {
            let first = |stops: &[u8]| text.iter().position(|byte| stops.contains(byte));
            for a in [0x00, 0x22, 0x80] {
                assert_eq!(memchr(a, &text), first(&[a]), "{text:?}");
            }
            for needle in [&text[..text.len().min(2)], &[0x22, 0x01]] {
                let found = (0..=text.len()).find(|index| text[*index..].starts_with(needle));
                assert_eq!(memmem::find(&text, needle), found, "{needle:?} in {text:?}");
            }
            assert_eq!(memchr2(0x22, 0x01, &text), first(&[0x22, 0x01]), "{text:?}");
            assert_eq!(memchr3(0x22, 0x7F, 0x00, &text), first(&[0x22, 0x7F, 0x00]), "{text:?}");
        }
    }
}
