// Made from crates/messages/src/json.rt by dev/erase: change that file, not this one.
//! Texts in JSON.

use proved_tokens::shim::prelude::{Grow, GrowText};

use proved_tokens::shim::alloc::AllocError;

/// Returns the text as it is written in a string of JSON.
pub fn json_escape(text: &str) -> Result<String, AllocError>
{
    let mut out = String::new();
    for c in text.chars() {
        push_escaped(&mut out, c)?;
    }
    Ok(out)
}

/// Appends a character. A quote, a backslash or a control character is escaped.
fn push_escaped(out: &mut String, c: char) -> Result<(), AllocError>
{
    match c {
        '"' => out.push_str_fallibly("\\\""),
        '\\' => out.push_str_fallibly("\\\\"),
        '\0'..='\u{F}' => push_control(out, "\\u000", c as u8),
        '\u{10}'..='\u{1F}' => push_control(out, "\\u001", c as u8 - 16),
        _ => out.push_fallibly(c),
    }
}

/// Appends the escape of a control character, from its beginning and its last digit.
fn push_control(out: &mut String, front: &str, digit: u8) -> Result<(), AllocError>
{
    out.push_str_fallibly(front)?;
    out.push_fallibly(hex(digit))
}

/// Returns a digit to the base 16.
fn hex(digit: u8) -> char
{
    if digit < 10 {
        (b'0' + digit) as char
    } else {
        (b'a' - 10 + digit) as char
    }
}
