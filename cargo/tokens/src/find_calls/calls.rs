// Made from crates/find_calls/src/calls.rt by dev/erase: change that file, not this one.
//! The calls among tokens.

use proved_tokens::shim::prelude::Grow;

use proved_tokens::pm_span::Span;
use proved_tokens::pm_token::{Delimiter, Spacing};
use proved_tokens::shim::alloc::AllocError;
use proved_tokens::token_buffer::{Cursor, Name, TokenText};

/// The limit of groups and `<` that are open at once. A `TokenBuffer` has fewer tokens.
const DEEPEST: usize = u32::MAX as usize;

/// An occurrence of the name that may be a call.
#[derive(Clone, Copy)]
struct Candidate {
    /// The span of the name.
    span: Span,
    /// Whether the tokens that were read make it a call.
    is_call: bool,
}

/// A group or a `<` that is open around the next tree.
#[derive(Clone, Copy)]
enum Open<'a> {
    /// A group, and the trees after it.
    Group(Cursor<'a>),
    /// A `<` in the turbofish of a candidate. The `<` that begins the turbofish has the index of its candidate.
    Angle(Option<usize>),
}

/// The spans of the names of all calls of this name that the cursor has, those inside groups too, in reading order.
///
/// It takes time in proportion to how many trees there are. Of `f(g!(f(1)))` and the name `f` the spans are 1..2 and
/// 6..7.
pub fn calls(name: &str, cursor: Cursor<'_>) -> Result<Vec<Span>, AllocError>
{
    let found = candidates(name, cursor)?;
    spans_of_calls(found.as_slice())
}

/// The spans of those candidates that are calls.
fn spans_of_calls(found: &[Candidate]) -> Result<Vec<Span>, AllocError>
{
    let mut spans = Vec::new();
    for one in found {
        if one.is_call {
            spans.push_fallibly(one.span)?;
        }
    }
    Ok(spans)
}

/// The candidates for calls of this name that the cursor has, in reading order. Each says whether it is a call.
///
/// It reads every tree once. `opened` has what is open, the innermost last. A `<` is kept there only if it is in the
/// turbofish of a candidate, so `in_arguments` says whether the next `<` or `>` counts.
fn candidates(
    name: &str,
    mut cursor: Cursor<'_>,
) -> Result<Vec<Candidate>, AllocError>
{
    let mut found = Vec::new();
    let mut opened = Vec::new();
    let mut defined = false;
    let mut in_arguments = false;
    loop {
        let follows_fn = defined;
        defined = false;
        let Some((first, after)) = cursor.next() else {
            let Some(next) = leave(cursor, &mut opened) else {
                return Ok(found);
            };
            cursor = next;
            in_arguments = is_in_arguments(opened.as_slice());
            continue;
        };
        match first {
            TokenText::Ident(ident) => {
                defined = is_fn(ident);
                if is_text(ident.text, name) && !follows_fn {
                    if let Some(inside) = note(cursor, after, &mut opened, &mut found)? {
                        cursor = inside;
                        defined = false;
                        in_arguments = true;
                        continue;
                    }
                }
                cursor = after;
            }
            TokenText::Group(_, inside) => {
                open_group(&mut opened, after)?;
                cursor = inside;
                in_arguments = false;
            }
            TokenText::Punct(mark, spacing) if in_arguments => {
                cursor = turn(mark, spacing, after, &mut opened, &mut found)?;
                in_arguments = is_in_arguments(opened.as_slice());
            }
            _ => cursor = after,
        }
    }
}

/// Takes out what is open innermost, at the end of a list, and returns the trees to go on at. Those are the trees after
/// a group. After a `<`, which nothing closes, they are still the end of the list. Returns `None` if nothing is open.
fn leave<'a>(end: Cursor<'a>, opened: &mut Vec<Open<'a>>) -> Option<Cursor<'a>>
{
    match opened.pop() {
        None => None,
        Some(Open::Group(after)) => Some(after),
        Some(Open::Angle(_)) => Some(end),
    }
}

/// Whether a `<` is open innermost.
fn is_in_arguments(opened: &[Open<'_>]) -> bool
{
    matches!(opened.last(), Some(Open::Angle(_)))
}

/// Adds the name that comes first to the candidates, if it may be a call. If a turbofish follows the name, opens its
/// `<`, and returns the trees after that.
fn note<'a>(
    here: Cursor<'a>,
    after: Cursor<'a>,
    opened: &mut Vec<Open<'a>>,
    found: &mut Vec<Candidate>,
) -> Result<Option<Cursor<'a>>, AllocError>
{
    if let Some(inside) = inside_turbofish(after) {
        open_angle(opened, Some(found.len()))?;
        push(found, here, false)?;
        return Ok(Some(inside));
    }
    if is_called_at_once(after) {
        push(found, here, true)?;
    }
    Ok(None)
}

/// Opens or closes a `<` at this mark in generic arguments, and returns the trees to go on at. The `>` of an arrow
/// closes nothing, so it is passed with its `-`.
fn turn<'a>(
    mark: char,
    spacing: Spacing,
    after: Cursor<'a>,
    opened: &mut Vec<Open<'a>>,
    found: &mut Vec<Candidate>,
) -> Result<Cursor<'a>, AllocError>
{
    if mark == '<' {
        open_angle(opened, None)?;
        return Ok(after);
    }
    if mark == '>' {
        close(after, opened, found);
        return Ok(after);
    }
    if begins_arrow(mark, spacing) {
        return Ok(past_arrow(after));
    }
    Ok(after)
}

/// Whether the mark is a `-` that is joint with the mark after it.
fn begins_arrow(mark: char, spacing: Spacing) -> bool
{
    mark == '-' && spacing == Spacing::Joint
}

/// The trees after the `>` that comes first, or all trees if none does.
fn past_arrow(after: Cursor<'_>) -> Cursor<'_>
{
    match after.next() {
        Some((TokenText::Punct('>', _), rest)) => rest,
        _ => after,
    }
}

/// Opens a group. The trees are those after it.
fn open_group<'a>(opened: &mut Vec<Open<'a>>, after: Cursor<'a>) -> Result<(), AllocError>
{
    opened.push_fallibly(Open::Group(after))?;
    Ok(())
}

/// Opens a `<`. It also returns `AllocError` if `DEEPEST` groups and `<` are open, because the definition of generic
/// arguments has no end for a deeper `<`.
fn open_angle(opened: &mut Vec<Open<'_>>, candidate: Option<usize>) -> Result<(), AllocError>
{
    if opened.len() >= DEEPEST {
        return Err(AllocError::met());
    }
    opened.push_fallibly(Open::Angle(candidate))?;
    Ok(())
}

/// Closes the innermost `<`. If it has a candidate, and a group in parentheses follows, the candidate is a call.
fn close<'a>(after: Cursor<'a>, opened: &mut Vec<Open<'a>>, found: &mut Vec<Candidate>)
{
    if let Some(Open::Angle(Some(index))) = opened.pop() {
        if after.group(Delimiter::Parenthesis).is_some() {
            mark_call(found, index);
        }
    }
}

/// Makes the candidate of this index a call.
fn mark_call(found: &mut Vec<Candidate>, index: usize)
{
    if let Some(candidate) = found.get_mut(index) {
        candidate.is_call = true;
    }
}

/// Adds the first tree to the candidates, if there is one.
fn push(found: &mut Vec<Candidate>, here: Cursor<'_>, is_call: bool) -> Result<(), AllocError>
{
    if let Some(span) = here.span() {
        found.push_fallibly(Candidate { span, is_call })?;
    }
    Ok(())
}

/// The trees after the `::<` that comes first, if it does. No `>` need close it.
fn inside_turbofish(after: Cursor<'_>) -> Option<Cursor<'_>>
{
    let Some((':', Spacing::Joint, colon)) = after.punct() else {
        return None;
    };
    let Some((':', _, angle)) = colon.punct() else {
        return None;
    };
    let Some(('<', _, inside)) = angle.punct() else {
        return None;
    };
    Some(inside)
}

/// Whether the trees after a name make it a call with no turbofish: a group in parentheses, or `!` and a group.
fn is_called_at_once(after: Cursor<'_>) -> bool
{
    match after.next() {
        Some((TokenText::Group(delimiter, _), _)) => delimiter == Delimiter::Parenthesis,
        Some((TokenText::Punct('!', _), arguments)) => arguments.any_group().is_some(),
        _ => false,
    }
}

/// Whether it is the keyword `fn`.
fn is_fn(ident: Name<'_>) -> bool
{
    !ident.raw && is_text(ident.text, "fn")
}

/// Whether the texts are equal.
fn is_text(text: &str, other: &str) -> bool
{
    text == other
}
