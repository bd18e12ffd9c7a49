// Made from crates/highlight/src/unread.rt by dev/erase: change that file, not this one.
//! The text that follows the last piece, and what is wrong in it.

use crate::highlight::style::Style;
use crate::highlight::writing::Sheet;
use proved_tokens::explain::{Explained, Reason, Stretch};
use crate::messages::split_chars;
use proved_tokens::pm_span::parts::bounds;
use proved_tokens::shim::alloc::AllocError;

/// Appends the rest of a text, at which no piece begins. The part that is wrong is marked with the reason why the rest
/// doesn't parse. If that reason is about something later, only the first character is marked, as for U+FEFF that comes
/// first.
pub fn push_unread(
    sheet: &mut Sheet,
    answer: &Option<Explained>,
    rest: &str,
) -> Result<(), AllocError>
{
    match answer {
        Some(why) => {
            if why.before.start == 0 {
                let (lo, hi) = bounds(fault_of(why).span);
                push_faulty(
                    sheet,
                    &why.reason,
                    lo.saturating_sub(FIRST),
                    hi - lo,
                    rest,
                )
            } else {
                push_stuck(sheet, rest)
            }
        }
        None => push_stuck(sheet, rest),
    }
}

/// The position of a text's first character.
const FIRST: u32 = 1;

/// Returns what is marked for an error: the part that is wrong or, if that is empty, as at the end of a text, the part
/// before it.
fn fault_of(why: &Explained) -> Stretch
{
    if why.at.start == why.at.end {
        why.before
    } else {
        why.at
    }
}

/// Appends a text in which, for this reason, `size` characters are wrong after the first `before` ones.
fn push_faulty(
    sheet: &mut Sheet,
    reason: &Reason,
    before: u32,
    size: u32,
    text: &str,
) -> Result<(), AllocError>
{
    let (front, rest) = split_chars(text, before);
    let (here, after) = split_chars(rest, size);
    sheet.push_piece(Style::Unread, front)?;
    sheet.push_faulty(reason, here)?;
    sheet.push_piece(Style::Unread, after)?;
    Ok(())
}

/// Appends a text of which only the first character is marked, without a reason.
fn push_stuck(sheet: &mut Sheet, text: &str) -> Result<(), AllocError>
{
    let mut after = text.chars();
    let Some(first) = after.next() else {
        return Ok(());
    };
    sheet.push_piece(Style::NoPiece, first.encode_utf8(&mut [0; 4]))?;
    sheet.push_piece(Style::Unread, after.as_str())?;
    Ok(())
}
