//! What the toolchain's proved crates answer about characters besides, which the feature `characters` has, by tables
//! that were made by asking them.

use crate::tables::characters::{CANONICAL, CLASS_RUNS, COMPATIBLE, PROPERTY_RUNS, SCRIPT_RUNS, WIDTH_RUNS};

/// The number that the runs have for the code point. The first run begins at 0.
fn number_in(runs: &[(u32, u8)], code: u32) -> u8 {
    runs[runs.partition_point(|(first, _)| *first <= code) - 1].1
}

/// Whether the character has the property of this weight.
fn has(weight: u8, c: char) -> bool {
    number_in(&PROPERTY_RUNS, c as u32) & weight != 0
}

/// Scripts of characters.
pub mod ucd_script {
    use super::{number_in, SCRIPT_RUNS};

    /// The property `Script`.
    #[derive(Clone, Copy, Debug, PartialEq, Eq)]
    pub struct Script(u8);

    #[allow(missing_docs, non_upper_case_globals)]
    impl Script {
        pub const Common: Script = Script(0);
        pub const Inherited: Script = Script(1);
        pub const Unknown: Script = Script(2);
        pub const Han: Script = Script(3);
        pub const Hiragana: Script = Script(4);
        pub const Katakana: Script = Script(5);
        pub const Hangul: Script = Script(6);
        pub const Bopomofo: Script = Script(7);

        /// Contract: the script of the character.
        pub fn for_char(c: char) -> Script {
            Script(number_in(&SCRIPT_RUNS, c as u32))
        }

        /// Contract: a number of its own, though not the same as in Rattle.
        pub fn number(self) -> u32 {
            u32::from(self.0)
        }
    }
}

/// Normal forms.
pub mod unicode_normalization {
    use super::{number_in, CANONICAL, CLASS_RUNS, COMPATIBLE};
    use crate::shim::alloc::AllocError;

    // Hangul syllables and their parts, of which there are so many second and third ones.
    const SYLLABLES: u32 = 0xAC00;
    const SYLLABLES_END: u32 = 0xD7A4;
    const FIRSTS: u32 = 0x1100;
    const SECONDS: u32 = 0x1161;
    const THIRDS: u32 = 0x11A7;
    const SECOND: u32 = 21;
    const THIRD: u32 = 28;

    /// Contract: whether the text is its own form NFC.
    pub fn is_nfc(text: &str) -> Result<bool, AllocError> {
        let own = text.chars().map(u32::from);
        Ok(text.is_ascii() || composed(&decomposed(text, parts)) == own.collect::<Vec<_>>())
    }

    /// Contract: the text's form NFKC.
    pub fn to_nfkc(text: &str) -> Result<String, AllocError> {
        let codes = composed(&decomposed(text, wide_parts));
        Ok(codes.into_iter().filter_map(char::from_u32).collect())
    }

    fn class(code: u32) -> u8 {
        number_in(&CLASS_RUNS, code)
    }

    /// The parts of a character that decomposes canonically.
    fn parts(code: u32) -> Option<&'static [u32]> {
        Some(CANONICAL[CANONICAL.binary_search_by_key(&code, |row| row.0).ok()?].2)
    }

    /// The same, compatibly too.
    fn wide_parts(code: u32) -> Option<&'static [u32]> {
        match COMPATIBLE.binary_search_by_key(&code, |row| row.0) {
            Ok(index) => Some(COMPATIBLE[index].1),
            Err(_) => parts(code),
        }
    }

    /// The text's characters decomposed, those between starters in the order of their classes.
    fn decomposed(text: &str, parts: fn(u32) -> Option<&'static [u32]>) -> Vec<u32> {
        let mut out = Vec::new();
        for code in text.chars().map(u32::from) {
            match parts(code) {
                Some(parts) => out.extend_from_slice(parts),
                None if (SYLLABLES..SYLLABLES_END).contains(&code) => {
                    let index = code - SYLLABLES;
                    out.extend([FIRSTS + index / THIRD / SECOND, SECONDS + index / THIRD % SECOND]);
                    out.extend(Some(THIRDS + index % THIRD).filter(|third| *third != THIRDS));
                }
                None => out.push(code),
            }
        }
        for run in out.split_mut(|code| class(*code) == 0) {
            run.sort_by_key(|code| class(*code));
        }
        out
    }

    /// What the two are composed to.
    fn composite(a: u32, b: u32) -> Option<u32> {
        let is_lead = (FIRSTS..FIRSTS + 19).contains(&a) && (SECONDS..SECONDS + SECOND).contains(&b);
        let is_open = (SYLLABLES..SYLLABLES_END).contains(&a) && (a - SYLLABLES) % THIRD == 0;
        if is_lead {
            return Some(SYLLABLES + ((a - FIRSTS) * SECOND + (b - SECONDS)) * THIRD);
        }
        if is_open && (THIRDS + 1..THIRDS + THIRD).contains(&b) {
            return Some(a + (b - THIRDS));
        }
        CANONICAL.iter().find(|row| row.1 == a && row.2.last() == Some(&b)).map(|row| row.0)
    }

    /// Each starter composed with what follows it, where nothing stands between that has no lesser class.
    fn composed(codes: &[u32]) -> Vec<u32> {
        let mut out: Vec<u32> = Vec::new();
        let mut starter = None;
        let mut last = 0;
        for code in codes {
            let class = class(*code);
            let is_next = starter.is_some_and(|at| at + 1 == out.len());
            if let Some(at) = starter.filter(|_| is_next || last < class) {
                if let Some(whole) = composite(out[at], *code) {
                    out[at] = whole;
                    continue;
                }
            }
            if class == 0 {
                starter = Some(out.len());
            }
            last = class;
            out.push(*code);
        }
        out
    }
}

/// Properties of characters.
pub mod ucd_props {
    use super::has;

    /// Contract: whether the character has the property `Bidi_Control`.
    pub fn is_bidi_control(c: char) -> bool {
        has(1, c)
    }

    /// Contract: whether the character has the property `Join_Control`.
    pub fn is_join_control(c: char) -> bool {
        has(2, c)
    }

    /// Contract: whether the character has the property `Variation_Selector`.
    pub fn is_variation_selector(c: char) -> bool {
        has(8, c)
    }

    /// Contract: whether the character has the property `White_Space`.
    pub fn is_white_space(c: char) -> bool {
        has(16, c)
    }
}

/// Properties that follow from others.
pub mod ucd_derived {
    use super::has;

    /// Contract: whether the character has the property `Default_Ignorable_Code_Point`.
    pub fn is_default_ignorable_code_point(c: char) -> bool {
        has(4, c)
    }
}

/// Widths of characters on a terminal.
pub mod unicode_width {
    use super::WIDTH_RUNS;

    /// What has a width on a terminal.
    pub trait UnicodeWidthChar {
        /// Contract: how many columns it takes, or `None` of a control character.
        fn width(self) -> Option<usize>;
    }

    impl UnicodeWidthChar for char {
        fn width(self) -> Option<usize> {
            let after = WIDTH_RUNS.partition_point(|(first, _)| *first <= self as u32);
            match WIDTH_RUNS[after - 1].1 {
                3 => None,
                width => Some(usize::from(width)),
            }
        }
    }
}

#[cfg(test)]
mod tests {
    use super::ucd_script::Script;
    use super::unicode_normalization::{is_nfc, to_nfkc};
    use super::unicode_width::UnicodeWidthChar;
    use super::{has, CANONICAL, CLASS_RUNS, COMPATIBLE, PROPERTY_RUNS, SCRIPT_RUNS, WIDTH_RUNS};

    #[test]
    fn the_tables_are_in_order() {
        for runs in [&WIDTH_RUNS[..], &PROPERTY_RUNS[..], &SCRIPT_RUNS[..], &CLASS_RUNS[..]] {
            assert_eq!(runs[0].0, 0);
            assert!(runs.windows(2).all(|pair| pair[0].0 < pair[1].0 && pair[0].1 != pair[1].1));
        }
        assert!(CANONICAL.windows(2).all(|pair| pair[0].0 < pair[1].0));
        assert!(COMPATIBLE.windows(2).all(|pair| pair[0].0 < pair[1].0));
    }

    #[test]
    fn texts_are_in_the_form_nfc_or_not() {
        for text in ["", "a", "\u{e9}", "\u{1eb9}\u{30c}", "\u{1100}", "\u{ac01}", "\u{301}", "\u{1161}\u{11a8}"] {
            assert_eq!(is_nfc(text).ok(), Some(true), "{text:?}");
        }
        for text in [
            "e\u{301}",
            "e\u{323}\u{30c}",
            "\u{212b}",
            "\u{1100}\u{1161}",
            "\u{ac00}\u{11a8}",
            "a\u{301}\u{323}",
            "\u{340}",
            "\u{958}x",
        ] {
            assert_eq!(is_nfc(text).ok(), Some(false), "{text:?}");
        }
    }

    #[test]
    fn texts_have_the_form_nfkc() {
        for (text, form) in [
            ("", ""),
            ("aB1", "aB1"),
            ("\u{ff41}", "a"),
            ("\u{fb01}x", "fix"),
            ("e\u{301}", "\u{e9}"),
            ("\u{212b}", "\u{c5}"),
            ("\u{1d400}\u{b2}", "A2"),
            ("\u{ff76}\u{ff9e}", "\u{30ac}"),
            ("\u{3131}\u{314f}", "\u{ac00}"),
            ("\u{1e9b}\u{323}", "\u{1e69}"),
            ("\u{fdfb}", "\u{62c}\u{644} \u{62c}\u{644}\u{627}\u{644}\u{647}"),
        ] {
            assert_eq!(to_nfkc(text).ok(), Some(form.to_string()), "{text:?}");
        }
    }

    #[test]
    fn characters_have_scripts() {
        let scripts = ['1', '\u{301}', '\u{378}', '\u{4e2d}', '\u{3042}', '\u{30a2}', '\u{ac00}', '\u{3105}'];
        for (number, c) in scripts.into_iter().enumerate() {
            assert_eq!(Script::for_char(c).number() as usize, number, "{c:?}");
        }
        assert_eq!(Script::for_char('a'), Script::for_char('\u{e9}'));
        assert_ne!(Script::for_char('a'), Script::for_char('\u{430}'));
    }

    #[test]
    fn some_characters_have_widths_and_properties() {
        let widths = ['a', '中', '\u{301}', '\t', '\0'].map(UnicodeWidthChar::width);
        assert_eq!(widths, [Some(1), Some(2), Some(0), None, None]);
        for (c, sum) in [
            ('a', 0),
            (' ', 16),
            ('\u{A0}', 16),
            ('\u{AD}', 4),
            ('\u{200D}', 6),
            ('\u{200E}', 5),
            ('\u{202E}', 5),
            ('\u{FE0F}', 12),
            ('\u{E0100}', 12),
        ] {
            let sum_of = [1, 2, 4, 8, 16].map(|weight| u8::from(has(weight, c)) * weight).iter().sum::<u8>();
            assert_eq!(sum_of, sum, "{c:?}");
        }
    }
}
