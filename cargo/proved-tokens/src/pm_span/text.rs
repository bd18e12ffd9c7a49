// Made from crates/pm_span/src/text.rt by dev/erase: change that file, not this one.
//! Characters and lines of texts.

use crate::pm_span::plain::count_plain;

/// Returns the number of characters in the text, which is at most the number of its bytes.
///
/// # Contract
///
/// - `ensures`: <code>result ≡ [length] ([chars] text.now)</code>
///
/// [length]: crate::contracts#std.length
/// [chars]: crate::contracts#std.chars
pub fn char_count(text: &str) -> usize
{
    if text.is_ascii() {
        return text.len();
    }
    count_chars(text)
}

/// Counts the characters without a test for ASCII.
fn count_chars(text: &str) -> usize
{
    text.chars().count()
}

/// Returns whether the text has fewer than `count` characters.
///
/// The characters are counted only if the text has at least `count` bytes: no text has more characters than bytes.
pub(crate) fn has_fewer_chars(text: &str, count: usize) -> bool
{
    text.len() < count || char_count(text) < count
}

/// Splits the text at its first line feed, which neither part has. Returns `None` if there is no line feed.
pub(crate) fn split_line(text: &str) -> Option<(&str, &str)>
{
    text.split_once('\n')
}

/// The first line of a text.
pub(crate) struct FirstLine<'a> {
    /// The number of its characters, without the line feed.
    pub(crate) count: usize,
    /// The line without its line feed, and the text after the line feed; `None` if the text has no line feed.
    pub(crate) split: Option<(&'a str, &'a str)>,
}

/// Returns the first line of the text. A line of ASCII is read once, 8 bytes at a time.
#[cfg_attr(not(debug_assertions), inline(always))]
pub(crate) fn first_line(text: &str) -> FirstLine<'_>
{
    let plain = count_plain(text.as_bytes());
    match text.as_bytes().get(plain) {
        None => FirstLine {
            count: plain,
            split: None,
        },
        Some(b'\n') => FirstLine {
            count: plain,
            split: Some((&text[..plain], &text[plain + 1..])),
        },
        Some(_) => match split_line(text) {
            None => FirstLine {
                count: count_chars(text),
                split: None,
            },
            Some((line, after)) => FirstLine {
                count: count_chars(line),
                split: Some((line, after)),
            },
        },
    }
}

/// Returns the text after its first `count` characters.
pub(crate) fn skip_chars(text: &str, count: usize) -> &str
{
    let mut rest = text.chars();
    for _ in 0..count {
        let _ = rest.next();
    }
    rest.as_str()
}

/// Returns the text before its last `count` characters.
pub(crate) fn skip_chars_back(text: &str, count: usize) -> &str
{
    let mut front = text.chars();
    for _ in 0..count {
        let _ = front.next_back();
    }
    front.as_str()
}
