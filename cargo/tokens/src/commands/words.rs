//! The words that a command is given, as texts.

use std::ffi::{OsStr, OsString};

/// The words of a command.
pub struct Words {
    /// A text for each word.
    pub texts: Vec<String>,
    /// The words that are no text, each after the text that stands for it. No other word is that text.
    pub names: Vec<(String, OsString)>,
}

impl Words {
    /// Whether there is a first word, and it is no text.
    pub fn first_is_no_text(&self) -> bool {
        self.texts.first().is_some_and(|first| self.names.iter().any(|(text, _)| text == first))
    }
}

/// The texts of words, without the first `--`. A word after it that begins with `-` is a file of this name in the
/// folder, `./-x`; a lone `-` is standard input there too.
pub fn texts(words: &[OsString]) -> Words {
    let mut rest = words.iter().map(OsString::as_os_str);
    let mut files: Vec<OsString> = rest.by_ref().take_while(|word| *word != "--").map(OsString::from).collect();
    files.extend(rest.map(in_folder));
    let mut names = Vec::new();
    let texts = files.iter().map(|file| text_of(file, &files, &mut names)).collect();
    Words { texts, names }
}

// The word as no option.
fn in_folder(word: &OsStr) -> OsString {
    if word != "-" && word.as_encoded_bytes().starts_with(b"-") {
        let mut path = OsString::from("./");
        path.push(word);
        return path;
    }
    word.into()
}

// The text of a word. One that is no text is noted, by a text that no other word has.
fn text_of(word: &OsStr, words: &[OsString], names: &mut Vec<(String, OsString)>) -> String {
    if let Some(text) = word.to_str() {
        return text.into();
    }
    let mut text = word.to_string_lossy().into_owned();
    while words.iter().any(|other| *other == *text) || names.iter().any(|(other, _)| *other == text) {
        text.push(char::REPLACEMENT_CHARACTER);
    }
    names.push((text.clone(), word.into()));
    text
}

#[cfg(test)]
mod tests {
    use super::*;

    fn of(words: &[&str]) -> Vec<String> {
        texts(&words.iter().map(OsString::from).collect::<Vec<_>>()).texts
    }

    #[test]
    fn words_after_two_hyphens_are_files() {
        let files = of(&["--tabs", "-", "--", "--tabs", "-", "--", "", "é"]);
        assert_eq!(files, ["--tabs", "-", "./--tabs", "-", "./--", "", "é"]);
        assert!(of(&["--"]).is_empty());
    }

    #[test]
    #[cfg(unix)]
    fn a_word_that_is_no_text_has_a_text_of_its_own() {
        use std::os::unix::ffi::OsStringExt;
        let no_text = |bytes: &[u8]| OsString::from_vec(bytes.to_vec());
        let words = [no_text(b"a\xff"), "a\u{FFFD}".into(), no_text(b"a\xfe"), "--".into(), no_text(b"-\xff")];
        let Words { texts, names } = texts(&words);
        assert_eq!(texts, ["a\u{FFFD}\u{FFFD}", "a\u{FFFD}", "a\u{FFFD}\u{FFFD}\u{FFFD}", "./-\u{FFFD}"]);
        assert_eq!(names[0], ("a\u{FFFD}\u{FFFD}".to_string(), no_text(b"a\xff")));
        assert_eq!(names[2].1, no_text(b"./-\xff"));
    }
}
