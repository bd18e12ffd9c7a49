// Made from crates/token_buffer/src/string.rt by dev/erase: change that file, not this one.
//! The string literal of a doc comment's text, which is not in the source.

use crate::pm_token::parts::{begins_octal, is_bare};
use crate::shim::fmt;

/// How a character is written in a string literal.
#[derive(Clone, Copy)]
enum Escape {
    /// The character itself.
    Bare(char),
    /// A backslash and this character.
    Short(char),
    /// `\x00`.
    LongZero,
    /// The character's number, such as `\u{1f}`.
    Unicode(char),
}

/// Writes the string literal of the text.
///
/// # Contract
///
/// - `ensures`: <code>[WritesOnOk] W.write_str_gives f.old result ([encode_utf8_all] ([string_text] ([chars]
///   text.now))) f.new</code>
///
/// [WritesOnOk]: crate::contracts#std.WritesOnOk
/// [encode_utf8_all]: crate::contracts#std.encode_utf8_all
/// [string_text]: crate::contracts#pm_token.Escaped.string_text
/// [chars]: crate::contracts#std.chars
pub fn write_string<W: fmt::Write>(text: &str, f: &mut fmt::Formatter<W>) -> fmt::Result
{
    write_one('"', f)?;
    let mut rest = text.chars();
    while let Some(c) = rest.next() {
        write_escape(escape_of(c, rest.as_str()), f)?;
    }
    write_one('"', f)
}

/// Writes the text.
///
/// # Contract
///
/// - `ensures`: <code>[WritesOnOk] W.write_str_gives f.old result ([encode_utf8_all] ([chars] text.now))
///   f.new</code>
///
/// [WritesOnOk]: crate::contracts#std.WritesOnOk
/// [encode_utf8_all]: crate::contracts#std.encode_utf8_all
/// [chars]: crate::contracts#std.chars
pub fn write_text<W: fmt::Write>(text: &str, f: &mut fmt::Formatter<W>) -> fmt::Result
{
    f.write_str(text)
}

/// Writes the character.
///
/// # Contract
///
/// - `ensures`: <code>[WritesOnOk] W.write_str_gives f.old result ([encode_utf8_all] (c ∷ \[\])) f.new</code>
///
/// [WritesOnOk]: crate::contracts#std.WritesOnOk
/// [encode_utf8_all]: crate::contracts#std.encode_utf8_all
pub fn write_one<W: fmt::Write>(c: char, f: &mut fmt::Formatter<W>) -> fmt::Result
{
    f.write_char(c)
}

/// Returns whether both texts are the same. Their string literals are the same exactly then.
///
/// # Contract
///
/// - `ensures texts`: <code>[IsTrue] result ↔ ([chars] text.now ≡ [chars] other.now)</code>
/// - `ensures strings`: <code>[IsTrue] result ↔ ([string_text] ([chars] text.now) ≡ [string_text] ([chars]
///   other.now))</code>
///
/// [IsTrue]: crate::contracts#std.IsTrue
/// [chars]: crate::contracts#std.chars
/// [string_text]: crate::contracts#pm_token.Escaped.string_text
pub fn is_same(text: &str, other: &str) -> bool
{
    text == other
}

/// Returns whether `literal` is the string literal of `text`.
///
/// # Contract
///
/// - `ensures`: <code>[IsTrue] result ↔ ([chars] literal.now ≡ [string_text] ([chars] text.now))</code>
///
/// [IsTrue]: crate::contracts#std.IsTrue
/// [chars]: crate::contracts#std.chars
/// [string_text]: crate::contracts#pm_token.Escaped.string_text
pub fn is_string_of(literal: &str, text: &str) -> bool
{
    let Some(mut left) = after(literal, '"') else {
        return false;
    };
    let mut rest = text.chars();
    while let Some(c) = rest.next() {
        let Some(next) = after_escape(left, escape_of(c, rest.as_str())) else {
            return false;
        };
        left = next;
    }
    left == "\""
}

/// Writes a character in this way.
fn write_escape<W: fmt::Write>(escape: Escape, f: &mut fmt::Formatter<W>) -> fmt::Result
{
    match escape {
        Escape::Bare(c) => write_one(c, f),
        Escape::Short(c) => {
            write_one('\\', f)?;
            write_one(c, f)
        }
        Escape::LongZero => f.write_str("\\x00"),
        Escape::Unicode(c) => write_unicode(c, f),
    }
}

/// Writes the character as its number, such as `\u{1f}`.
fn write_unicode<W: fmt::Write>(c: char, f: &mut fmt::Formatter<W>) -> fmt::Result
{
    for unit in c.escape_unicode() {
        write_one(unit, f)?;
    }
    Ok(())
}

/// Returns the text after a character that is written in this way, or `None` if the text doesn't begin with that.
fn after_escape(text: &str, escape: Escape) -> Option<&str>
{
    match escape {
        Escape::Bare(c) => after(text, c),
        Escape::Short(c) => after(after(text, '\\')?, c),
        Escape::LongZero => after(after(after(after(text, '\\')?, 'x')?, '0')?, '0'),
        Escape::Unicode(c) => after_unicode(text, c),
    }
}

/// Returns the text after the character's number, such as `\u{1f}`, or `None` if the text doesn't begin with that.
fn after_unicode(text: &str, c: char) -> Option<&str>
{
    let mut rest = text;
    for unit in c.escape_unicode() {
        rest = after(rest, unit)?;
    }
    Some(rest)
}

/// Returns the text after the character, or `None` if the text doesn't begin with it.
fn after(text: &str, c: char) -> Option<&str>
{
    let mut rest = text.chars();
    match rest.next() {
        Some(first) if first == c => Some(rest.as_str()),
        _ => None,
    }
}

/// Returns how the character is written in a string literal, if `rest` follows it.
fn escape_of(c: char, rest: &str) -> Escape
{
    match c {
        '\0' if begins_octal(rest) => Escape::LongZero,
        '\0' => Escape::Short('0'),
        '\t' => Escape::Short('t'),
        '\r' => Escape::Short('r'),
        '\n' => Escape::Short('n'),
        '\\' => Escape::Short('\\'),
        '"' => Escape::Short('"'),
        _ if is_bare(c) => Escape::Bare(c),
        _ => Escape::Unicode(c),
    }
}
