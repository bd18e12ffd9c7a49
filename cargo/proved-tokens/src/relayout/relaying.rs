// Made from crates/relayout/src/relaying.rt by dev/erase: change that file, not this one.
//! Writes a text with other white space.

use crate::relayout::errors::RelayoutError;
use crate::relayout::white::{White, push_white};
use crate::lexical::parts::{before, begins};
use crate::lexical::{PieceKind, PlacedPiece, pieces};
use crate::pm_token::parts::TextBuilder;
use crate::shim::alloc::AllocError;

/// Returns the text with other white space between its tokens and comments, which stay as they are.
///
/// Each run of white characters becomes what the next of the choices says. Runs after the last choice stay as they are.
/// No run is added, none becomes empty, and a line comment keeps its line end. So the text keeps its pieces except for
/// white characters, and it parses to the same tokens up to spans, whatever is chosen.
///
/// Returns `NoPiece` if no pieces cover the text, and `Memory` if memory runs out. Delimiters need not match. The call
/// takes time proportional to the length of the text and of what it writes.
///
/// Example: with `Space`, `Lines` with 4 spaces and `Space`, `a  +\n// b\n c` becomes `a +\n    // b\nc`.
///
/// # Contract
///
/// - `ensures ok`: <code>[IfOk] result (λ out. [IsRelaid] choices.now ([chars] text.now) ([chars]
///   ([string_bytes] out)))</code>
/// - `ensures no_piece`: <code>[IfErr] result ([IfNoPiece] ([HasNoCover] ([chars] text.now)))</code>
///
/// [IfOk]: crate::contracts#std.IfOk
/// [IsRelaid]: crate::contracts#relayout.Relaid.IsRelaid
/// [chars]: crate::contracts#std.chars
/// [string_bytes]: crate::contracts#std.string_bytes
/// [IfErr]: crate::contracts#std.IfErr
/// [IfNoPiece]: crate::contracts#relayout.Relaid.IfNoPiece
/// [HasNoCover]: crate::contracts#relayout.Relaid.HasNoCover
pub fn relayout(text: &str, choices: &[White]) -> Result<String, RelayoutError>
{
    let mut out = TextBuilder::with_room(text.len())?;
    let mut left = choices;
    let mut line = false;
    // The text from `kept` up to the walk stays as it is and is not written yet. It is copied in one go, before the
    // next run of white characters that changes or at the end.
    let mut kept = text;
    let mut walk = pieces(text);
    loop {
        let from = walk.rest();
        let next = walk.next_after_white();
        let Some(piece) = next.piece else {
            if !next.rest.is_empty() {
                return Err(RelayoutError::NoPiece);
            }
            let (stays, _) = push_run(&mut out, left, line, kept, from, next.white, next.rest)?;
            out.push_text(stays)?;
            return Ok(out.into_string());
        };
        let (stays, choices) = push_run(&mut out, left, line, kept, from, next.white, next.rest)?;
        kept = stays;
        left = choices;
        line = is_line(piece);
    }
}

/// Whether the piece is a line comment, also a doc comment.
fn is_line(next: PlacedPiece<'_>) -> bool
{
    match next.piece.kind {
        PieceKind::Gap | PieceKind::Doc { .. } => begins(next.text, "//"),
        _ => false,
    }
}

/// Takes the next choice for the run of white characters between `from` and `to`, if the run is not empty. A run that
/// changes is written as the choice says, after the text that was kept before it. Returns the text that is kept now,
/// which ends with `to`, and the choices for later runs.
#[cfg_attr(not(debug_assertions), inline(always))]
fn push_run<'a, 'b>(
    out: &mut TextBuilder,
    choices: &'a [White],
    line: bool,
    kept: &'b str,
    from: &str,
    run: &str,
    to: &'b str,
) -> Result<(&'b str, &'a [White]), AllocError>
{
    if run.is_empty() {
        return Ok((kept, choices));
    }
    match choices.split_first() {
        None => Ok((kept, choices)),
        Some((White::Kept, left)) => Ok((kept, left)),
        Some((choice, left)) => {
            out.push_text(before(kept, from))?;
            push_white(out, *choice, line, run)?;
            Ok((to, left))
        }
    }
}
