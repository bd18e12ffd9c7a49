// Made from crates/layout/src/gaps.rt by dev/erase: change that file, not this one.
//! Gaps of white space, and the trait of types that choose them.

use crate::layout::writing::{closer, opener};
use crate::pm_stream::{Step, TokenTree};
use crate::pm_token::Spacing;
use crate::pm_token::parts::{TextBuilder, is_raw, name_of};
use crate::shim::alloc::AllocError;

/// White space between two tokens.
#[derive(Clone, Copy)]
pub enum Gap {
    /// No white space.
    Nothing,
    /// One space.
    Space,
    /// A line end and this number of spaces.
    Line(usize),
    /// A line end, an empty line and this number of spaces.
    Blank(usize),
}

/// Where in a stream a gap is, as a chooser sees it.
#[derive(Clone, Copy)]
pub struct GapContext<'a> {
    /// The token, opener or closer before the gap, with the trees that follow it in the same list. `None` at the
    /// beginning of the stream.
    pub before: Option<Step<'a>>,
    /// The token, opener or closer after the gap. `None` at the end of the stream.
    pub after: Option<Step<'a>>,
    /// The number of groups around the gap. A gap before a closer counts as outside the closer's group.
    pub depth: usize,
}

/// Chooses the gaps of a layout.
pub trait Chooser {
    // Relates the chooser before a call, the place with the gap that it gave, and the chooser after it.

    /// Returns the gap that the chooser wants at this place. It is called once for each gap of a stream, in order.
    ///
    /// # Contract
    ///
    /// - `ensures`: <code>gap_gives self.old ([choice_of] place.entry result) self.new</code>
    ///
    /// [choice_of]: crate::contracts#layout.Written.choice_of
    fn gap(&mut self, place: GapContext<'_>) -> Gap;
}

/// Returns the gap that is written where `chosen` is chosen. Nothing is written after a Joint mark. A space is written
/// if nothing is chosen and the text of the next step would extend the token before. Returns `None` if the step before
/// is a number of digits and the next step is a dot, because the text after the dot then decides.
#[cfg_attr(not(debug_assertions), inline(always))]
pub(crate) fn fitting(before: Option<Step<'_>>, chosen: Gap, next: Step<'_>) -> Option<Gap>
{
    let Some(step) = before else {
        return Some(chosen);
    };
    if is_joint(step) {
        return Some(Gap::Nothing);
    }
    let Gap::Nothing = chosen else {
        return Some(chosen);
    };
    if !goes_on(step, next) {
        return Some(Gap::Nothing);
    }
    if is_dot(next) {
        return gap_before_dot(step);
    }
    Some(Gap::Space)
}

/// Whether the step is the mark `.`.
fn is_dot(step: Step<'_>) -> bool
{
    match step {
        Step::Token(TokenTree::Punct(punct), _) => punct.as_char() == '.',
        _ => false,
    }
}

/// Returns the gap between the step and a dot if nothing is chosen, or `None` if the text after the dot decides.
fn gap_before_dot(step: Step<'_>) -> Option<Gap>
{
    match step {
        Step::Token(TokenTree::Literal(literal), _) => literal_gap(literal.text()),
        _ => Some(Gap::Space),
    }
}

/// Returns the gap between the literal of this text and a dot, or `None` if the text after the dot decides.
fn literal_gap(text: &str) -> Option<Gap>
{
    if is_digits(text) {
        return None;
    }
    if ends_with_dot(text) {
        return Some(Gap::Space);
    }
    Some(Gap::Nothing)
}

/// Whether the text is a digit and then only digits and `_`.
fn is_digits(text: &str) -> bool
{
    begins_with_digit(text) && is_all_digits(text)
}

/// Whether each character is an ASCII digit or `_`.
fn is_all_digits(text: &str) -> bool
{
    text.chars().all(|c| c.is_ascii_digit() || c == '_')
}

/// Whether the text ends with a dot.
fn ends_with_dot(text: &str) -> bool
{
    text.ends_with('.')
}

/// Whether a dot before this gap and step belongs to no number: the gap is empty, and a dot or a character that may
/// begin an identifier follows it.
pub(crate) fn frees_dot(gap: Gap, next: Step<'_>) -> bool
{
    let Gap::Nothing = gap else {
        return false;
    };
    begins_with_bar(next)
}

/// Whether the step's text begins with a dot or with a character that may begin an identifier.
fn begins_with_bar(step: Step<'_>) -> bool
{
    match first_of(step) {
        Some(first) => bars_dot(first),
        None => false,
    }
}

/// Whether a dot right before the character belongs to no number.
fn bars_dot(c: char) -> bool
{
    c == '.' || begins_name(c)
}

/// Whether an identifier may begin with the character.
fn begins_name(c: char) -> bool
{
    if c != '_' && !crate::shim::unicode_ident::is_xid_start(c) {
        return false;
    }
    !c.is_whitespace() && c != '\u{200E}' && c != '\u{200F}' && c != '\u{FEFF}'
}

/// Whether the step is a Joint mark.
#[cfg_attr(not(debug_assertions), inline(always))]
fn is_joint(step: Step<'_>) -> bool
{
    match step {
        Step::Token(TokenTree::Punct(punct), _) => punct.spacing() == Spacing::Joint,
        _ => false,
    }
}

/// Whether the text of the next step would extend the token of this step.
#[cfg_attr(not(debug_assertions), inline(always))]
fn goes_on(step: Step<'_>, next: Step<'_>) -> bool
{
    let Step::Token(tree, _) = step else {
        return false;
    };
    let Some(first) = first_of(next) else {
        return false;
    };
    match tree {
        TokenTree::Group(_) => false,
        TokenTree::Ident(_) => parts_name(first),
        TokenTree::Punct(_) => crate::lexical::is_mark(first),
        TokenTree::Literal(literal) => parts_literal(literal.text(), first),
    }
}

/// The first character that the step writes.
#[cfg_attr(not(debug_assertions), inline(always))]
fn first_of(step: Step<'_>) -> Option<char>
{
    match step {
        Step::Enter(group, _) => opener(group.delimiter()),
        Step::Leave(group, _) => closer(group.delimiter()),
        Step::Token(tree, _) => first_of_tree(tree),
    }
}

/// The first character of a token, or of a group's opener.
#[cfg_attr(not(debug_assertions), inline(always))]
fn first_of_tree(tree: &TokenTree) -> Option<char>
{
    match tree {
        TokenTree::Group(group) => opener(group.delimiter()),
        TokenTree::Ident(ident) if is_raw(ident) => Some('r'),
        TokenTree::Ident(ident) => name_of(ident).chars().next(),
        TokenTree::Punct(punct) => Some(punct.as_char()),
        TokenTree::Literal(literal) => literal.text().chars().next(),
    }
}

/// Whether the character right after a name would extend the name, or make a literal or a lifetime of it.
fn parts_name(c: char) -> bool
{
    crate::shim::unicode_ident::is_xid_continue(c) || c == '"' || c == '\'' || c == '#'
}

/// Whether the character right after the literal of this text would extend it.
fn parts_literal(text: &str, c: char) -> bool
{
    if begins_with_digit(text) {
        crate::shim::unicode_ident::is_xid_continue(c) || c == '.' || c == '+' || c == '-'
    } else {
        crate::shim::unicode_ident::is_xid_continue(c)
    }
}

/// Whether a digit begins the text.
fn begins_with_digit(text: &str) -> bool
{
    match text.chars().next() {
        Some(first) => first.is_ascii_digit(),
        None => false,
    }
}

/// Writes the gap.
#[cfg_attr(not(debug_assertions), inline(always))]
pub(crate) fn push_gap(text: &mut TextBuilder, gap: Gap) -> Result<(), AllocError>
{
    match gap {
        Gap::Nothing => Ok(()),
        Gap::Space => text.push(' '),
        Gap::Line(columns) => {
            text.push('\n')?;
            push_spaces(text, columns)
        }
        Gap::Blank(columns) => {
            text.push('\n')?;
            text.push('\n')?;
            push_spaces(text, columns)
        }
    }
}

/// Writes `count` spaces.
fn push_spaces(text: &mut TextBuilder, count: usize) -> Result<(), AllocError>
{
    let mut left = count;
    while left >= 8 {
        text.push_text("        ")?;
        left -= 8;
    }
    text.push_text(few_spaces(left))
}

/// Returns `count` spaces, which are fewer than eight.
fn few_spaces(count: usize) -> &'static str
{
    match count {
        0 => "",
        1 => " ",
        2 => "  ",
        3 => "   ",
        4 => "    ",
        5 => "     ",
        6 => "      ",
        _ => "       ",
    }
}
