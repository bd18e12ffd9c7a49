// Made from crates/rust_check/src/turns.rt by dev/erase: change that file, not this one.
//! Whether the controls of direction on a line are balanced.

use proved_tokens::shim::prelude::Grow;

use proved_tokens::shim::alloc::AllocError;

/// What a control does to the direction of the text.
#[derive(Clone, Copy, Debug, PartialEq, Eq)]
pub enum Turn {
    /// It opens and closes nothing.
    Stays,
    /// It opens a part with its own direction: an isolate (`true`), or an embedding or override (`false`).
    Opens(bool),
    /// It closes an isolate (`true`), or an embedding or override (`false`).
    Closes(bool),
}

/// Whether the controls of direction on the text's first line are balanced: each part that is opened there is closed
/// there, the innermost first, and nothing else is closed. Only LF ends the line.
pub fn is_balanced(text: &str) -> Result<bool, AllocError>
{
    let mut opened = Vec::new();
    let mut rest = text.chars();
    while let Some(c) = rest.next() {
        if c == '\n' {
            return Ok(opened.as_slice().is_empty());
        }
        if !take(&mut opened, c)? {
            return Ok(false);
        }
    }
    Ok(opened.as_slice().is_empty())
}

/// Applies the character to the parts that are open, and returns whether it is in balance. It is not if it closes
/// another part than the innermost.
fn take(opened: &mut Vec<bool>, c: char) -> Result<bool, AllocError>
{
    match turn_of(c) {
        Turn::Stays => Ok(true),
        Turn::Opens(apart) => {
            opened.push_fallibly(apart)?;
            Ok(true)
        }
        Turn::Closes(apart) => match opened.pop() {
            Some(innermost) => Ok(is_same(innermost, apart)),
            None => Ok(false),
        },
    }
}

/// Whether both are isolates, or neither is.
fn is_same(a: bool, b: bool) -> bool
{
    if a { b } else { !b }
}

/// Returns what the character does to the direction of the text.
fn turn_of(c: char) -> Turn
{
    match c {
        '\u{202A}' | '\u{202B}' | '\u{202D}' | '\u{202E}' => Turn::Opens(false),
        '\u{2066}'..='\u{2068}' => Turn::Opens(true),
        '\u{202C}' => Turn::Closes(false),
        '\u{2069}' => Turn::Closes(true),
        _ => Turn::Stays,
    }
}
