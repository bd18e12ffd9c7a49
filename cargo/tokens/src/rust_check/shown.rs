// Made from crates/rust_check/src/shown.rt by dev/erase: change that file, not this one.
//! How a line is shown on a terminal, and how many columns it takes.

use proved_tokens::shim::prelude::{Grow, GrowText};

use crate::rust_check::hidden::is_hidden;
use proved_tokens::shim::alloc::AllocError;
use proved_tokens::shim::unicode_width::UnicodeWidthChar;

/// Returns the two parts of a line as they are shown: a tab as four spaces, CR and hidden characters as U+FFFD.
pub fn shown_line(front: &str, rest: &str) -> Result<String, AllocError>
{
    let mut out = String::new();
    push_shown(&mut out, front)?;
    push_shown(&mut out, rest)?;
    Ok(out)
}

/// Returns carets under the columns of `part`, but at least one, after spaces for the columns of `front`, which
/// precedes it.
pub fn underline(front: &str, part: &str) -> Result<String, AllocError>
{
    let mut out = String::new();
    push_filled(&mut out, " ", front)?;
    let bare = out.len();
    push_filled(&mut out, "^", part)?;
    if out.len() == bare {
        out.push_str_fallibly("^")?;
    }
    Ok(out)
}

/// Returns `count` spaces.
pub fn spaces(count: usize) -> Result<String, AllocError>
{
    let mut out = String::new();
    push_times(&mut out, count, " ")?;
    Ok(out)
}

/// Appends a text as it is shown.
fn push_shown(out: &mut String, text: &str) -> Result<(), AllocError>
{
    for c in text.chars() {
        push_character(out, c)?;
    }
    Ok(())
}

/// Appends a character as it is shown.
fn push_character(out: &mut String, c: char) -> Result<(), AllocError>
{
    match c {
        '\t' => out.push_str_fallibly("    "),
        '\r' => out.push_fallibly('\u{FFFD}'),
        _ if is_hidden(c) => out.push_fallibly('\u{FFFD}'),
        _ => out.push_fallibly(c),
    }
}

/// Appends `fill` once for each column of the text.
fn push_filled(out: &mut String, fill: &str, text: &str) -> Result<(), AllocError>
{
    for c in text.chars() {
        push_times(out, columns(c), fill)?;
    }
    Ok(())
}

/// Appends the text `count` times.
fn push_times(out: &mut String, count: usize, text: &str) -> Result<(), AllocError>
{
    for _ in 0..count {
        out.push_str_fallibly(text)?;
    }
    Ok(())
}

/// Returns how many columns the character takes as it is shown.
fn columns(c: char) -> usize
{
    match c {
        '\t' => 4,
        '\r' => 1,
        _ if is_hidden(c) => 1,
        _ => c.width().unwrap_or(0),
    }
}
