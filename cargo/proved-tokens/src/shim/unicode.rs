//! What the toolchain's proved crates answer about characters, by tables that were made by asking them.

use crate::tables::{CATEGORY_RUNS, IDENTIFIER_CONTINUE, IDENTIFIER_START};

/// Whether the code point is in one of the ranges, which are in order.
fn is_within(ranges: &[(u32, u32)], c: char) -> bool {
    let after = ranges.partition_point(|(first, _)| *first <= c as u32);
    after > 0 && c as u32 <= ranges[after - 1].1
}

/// The code points of the first two planes, which almost all texts keep to, are looked up by a bit each.
const WITH_BITS: u32 = 0x20000;

type Bits = [u64; (WITH_BITS / 64) as usize];

static START_BITS: Bits = bits_of(&IDENTIFIER_START);
static CONTINUE_BITS: Bits = bits_of(&IDENTIFIER_CONTINUE);

/// Which code points with a bit are in one of the ranges. The compiler runs it in each build, so a whole word at once.
const fn bits_of(ranges: &[(u32, u32)]) -> Bits {
    let mut bits = [0; (WITH_BITS / 64) as usize];
    let mut at = 0;
    while at < ranges.len() {
        let (mut point, last) = ranges[at];
        while point <= last && point < WITH_BITS {
            let word_end = point | 63;
            let end = if last < word_end { last } else { word_end };
            bits[(point / 64) as usize] |= (u64::MAX >> (63 - end % 64)) & (u64::MAX << (point % 64));
            point = end + 1;
        }
        at += 1;
    }
    bits
}

/// Whether the code point is in one of the ranges, of which these are the bits.
#[inline]
fn is_among(bits: &Bits, ranges: &[(u32, u32)], c: char) -> bool {
    match bits.get((c as u32 / 64) as usize) {
        Some(word) => word >> (c as u32 % 64) & 1 == 1,
        None => is_within(ranges, c),
    }
}

/// Characters of identifiers.
pub mod unicode_ident {
    use super::{is_among, CONTINUE_BITS, IDENTIFIER_CONTINUE, IDENTIFIER_START, START_BITS};

    /// Contract: whether the character has the property `XID_Start`.
    #[inline]
    pub fn is_xid_start(c: char) -> bool {
        is_among(&START_BITS, &IDENTIFIER_START, c)
    }

    /// Contract: whether the character has the property `XID_Continue`.
    #[inline]
    pub fn is_xid_continue(c: char) -> bool {
        is_among(&CONTINUE_BITS, &IDENTIFIER_CONTINUE, c)
    }
}

/// Categories of characters.
pub mod ucd_category {
    use super::CATEGORY_RUNS;

    /// The property `General_Category`, as far as it is asked.
    #[derive(Clone, Copy, Debug, PartialEq, Eq)]
    #[allow(missing_docs)]
    pub enum GeneralCategory {
        NonspacingMark,
        EnclosingMark,
        SpaceSeparator,
        LineSeparator,
        ParagraphSeparator,
        Control,
        Format,
        PrivateUse,
        Unassigned,
        /// Any other.
        Other,
    }

    /// The categories by their numbers in the table.
    pub(crate) const CATEGORIES: [GeneralCategory; 10] = [
        GeneralCategory::NonspacingMark,
        GeneralCategory::EnclosingMark,
        GeneralCategory::SpaceSeparator,
        GeneralCategory::LineSeparator,
        GeneralCategory::ParagraphSeparator,
        GeneralCategory::Control,
        GeneralCategory::Format,
        GeneralCategory::PrivateUse,
        GeneralCategory::Unassigned,
        GeneralCategory::Other,
    ];

    impl GeneralCategory {
        /// Contract: the category of the character.
        pub fn for_char(c: char) -> GeneralCategory {
            let after = CATEGORY_RUNS.partition_point(|(first, _)| *first <= c as u32);
            CATEGORIES[usize::from(CATEGORY_RUNS[after - 1].1)]
        }
    }
}

#[cfg(test)]
mod tests {
    use super::ucd_category::{GeneralCategory, CATEGORIES};
    use super::unicode_ident::{is_xid_continue, is_xid_start};
    use super::{is_within, CATEGORY_RUNS, IDENTIFIER_CONTINUE, IDENTIFIER_START};

    #[test]
    fn each_character_is_what_the_ranges_say() {
        for c in '\0'..=char::MAX {
            assert_eq!(is_xid_start(c), is_within(&IDENTIFIER_START, c), "{c:?}");
            assert_eq!(is_xid_continue(c), is_within(&IDENTIFIER_CONTINUE, c), "{c:?}");
        }
    }

    #[test]
    fn the_tables_are_in_order() {
        for ranges in [&IDENTIFIER_START[..], &IDENTIFIER_CONTINUE[..]] {
            assert!(ranges.iter().all(|(first, last)| first <= last));
            assert!(ranges.windows(2).all(|pair| pair[0].1 + 1 < pair[1].0));
        }
        assert_eq!(CATEGORY_RUNS[0].0, 0);
        assert!(CATEGORY_RUNS.windows(2).all(|pair| pair[0].0 < pair[1].0 && pair[0].1 != pair[1].1));
        assert!(CATEGORY_RUNS.iter().all(|(_, number)| usize::from(*number) < CATEGORIES.len()));
    }

    #[test]
    fn some_characters_are_what_they_are() {
        assert!(is_xid_start('a') && is_xid_start('é') && is_xid_start('中') && !is_xid_start('1'));
        assert!(is_xid_continue('1') && is_xid_continue('\u{301}') && !is_xid_continue('-'));
        assert!(!is_xid_start('\u{10FFFF}') && !is_xid_start('\0'));
        for (c, category) in [
            ('\0', GeneralCategory::Control),
            ('a', GeneralCategory::Other),
            (' ', GeneralCategory::SpaceSeparator),
            ('\u{301}', GeneralCategory::NonspacingMark),
            ('\u{2028}', GeneralCategory::LineSeparator),
            ('\u{200E}', GeneralCategory::Format),
            ('\u{E000}', GeneralCategory::PrivateUse),
            ('\u{10FFFF}', GeneralCategory::Unassigned),
        ] {
            assert_eq!(GeneralCategory::for_char(c), category, "{c:?}");
        }
    }
}
