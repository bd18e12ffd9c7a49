// Made from crates/rust_check/src/hidden.rt by dev/erase: change that file, not this one.
//! Characters that a reader doesn't see, or that change how the text around them looks.

use proved_tokens::shim::ucd_category::GeneralCategory;
use proved_tokens::shim::ucd_derived::is_default_ignorable_code_point;
use proved_tokens::shim::ucd_props::{is_bidi_control, is_join_control, is_variation_selector, is_white_space};

/// How a character hides something from the reader of a text.
#[derive(Clone, Copy, Debug, PartialEq, Eq)]
pub enum Hidden {
    /// It controls the direction of the text.
    Direction,
    /// It joins its neighbours, or keeps them apart.
    Joiner,
    /// It is not shown.
    Invisible,
    /// It controls a device.
    Control,
    /// It is white space that looks like a space or a line end but is neither.
    White,
}

/// Returns how the character hides something, if it does. Past ASCII the properties of Unicode decide.
pub fn hides_as(c: char) -> Option<Hidden>
{
    if c.is_ascii() {
        ascii_hides_as(c)
    } else {
        other_hides_as(c)
    }
}

/// Returns how an ASCII character hides something: each control does, except tab, LF and CR.
fn ascii_hides_as(c: char) -> Option<Hidden>
{
    match c {
        '\t' | '\n' | '\r' => None,
        '\0'..='\u{1F}' | '\u{7F}' => Some(Hidden::Control),
        _ => None,
    }
}

/// Returns how a character past ASCII hides something. A variation selector hides nothing, since it shows on the
/// character before it.
fn other_hides_as(c: char) -> Option<Hidden>
{
    if is_bidi_control(c) {
        Some(Hidden::Direction)
    } else if is_join_control(c) {
        Some(Hidden::Joiner)
    } else if is_default_ignorable_code_point(c) && !is_variation_selector(c) {
        Some(Hidden::Invisible)
    } else if GeneralCategory::for_char(c) == GeneralCategory::Control {
        Some(Hidden::Control)
    } else if is_white_space(c) {
        Some(Hidden::White)
    } else {
        None
    }
}

/// Whether the character must not be shown as it is: it hides something and isn't white space.
pub fn is_hidden(c: char) -> bool
{
    match hides_as(c) {
        None | Some(Hidden::White) => false,
        Some(_) => true,
    }
}
