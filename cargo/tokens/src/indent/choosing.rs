// Made from crates/indent/src/choosing.rt by dev/erase: change that file, not this one.
//! Chooses the white space that indents a text.

use proved_tokens::shim::prelude::Grow;

use proved_tokens::lexical::{PieceKind, PlacedPiece, pieces};
use proved_tokens::relayout::White;
use proved_tokens::shim::alloc::AllocError;

/// By how much each open group indents a line.
#[derive(Clone, Copy, Debug, PartialEq, Eq)]
pub enum IndentStyle {
    /// By one tab.
    Tab,
    /// By this number of spaces.
    Spaces(u8),
}

/// Returns the choice for each run of white space of a text, so that its lines are indented by the groups that are
/// open.
///
/// Closers at the start of a line count as closed before the line.
pub fn choices(text: &str, step: IndentStyle) -> Result<Vec<White>, AllocError>
{
    let mut choices = Vec::new();
    let mut open: usize = 0;
    let mut walk = pieces(text);
    loop {
        let next = walk.next_after_white();
        let Some(piece) = next.piece else {
            push_choice(&mut choices, next.white, "", 0, step)?;
            return Ok(choices);
        };
        push_choice(&mut choices, next.white, next.rest, open, step)?;
        open = open_after(piece, open);
    }
}

/// Returns how many groups are open after the piece.
fn open_after(next: PlacedPiece<'_>, open: usize) -> usize {
    match next.piece.kind {
        PieceKind::Opener(_) => open.saturating_add(1),
        PieceKind::Closer(_) => open.saturating_sub(1),
        _ => open,
    }
}

/// Adds the choice for a run of white space, if it is not empty. `rest` follows the run, and `open` groups are open
/// there.
fn push_choice(
    choices: &mut Vec<White>,
    run: &str,
    rest: &str,
    open: usize,
    step: IndentStyle,
) -> Result<(), AllocError>
{
    if run.is_empty() {
        return Ok(());
    }
    let choice = if run.contains('\n') {
        indentation(open.saturating_sub(closers(rest)), step)
    } else {
        White::Kept
    };
    choices.push_fallibly(choice)?;
    Ok(())
}

/// Returns how many closers are at the start of the line.
fn closers(line: &str) -> usize {
    let mut count: usize = 0;
    for c in line.chars() {
        match c {
            ')' | ']' | '}' => count = count.saturating_add(1),
            ' ' | '\t' => {}
            _ => break,
        }
    }
    count
}

/// Returns the white space that begins a line on this level.
fn indentation(level: usize, step: IndentStyle) -> White
{
    match step {
        IndentStyle::Tab => White::Lines {
            tabs: level,
            spaces: 0,
        },
        IndentStyle::Spaces(width) => White::Lines {
            tabs: 0,
            spaces: level.saturating_mul(usize::from(width)),
        },
    }
}
