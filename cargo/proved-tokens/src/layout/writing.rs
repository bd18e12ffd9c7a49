// Made from crates/layout/src/writing.rt by dev/erase: change that file, not this one.
//! Writes a stream with chosen gaps.

use crate::layout::errors::LayoutError;
use crate::layout::gaps::{Chooser, Gap, GapContext, fitting, frees_dot, push_gap};
use crate::pm_stream::{Step, TokenStream, TokenTree};
use crate::pm_token::parts::{TextBuilder, is_raw, name_of};
use crate::pm_token::{Delimiter, Ident};
use crate::shim::alloc::AllocError;
use crate::shim::io::Write;

/// Returns the tokens of the stream with the gaps that the chooser gives.
///
/// Each gap is written as it is given, with two exceptions. Nothing is written after a Joint mark, and a space is
/// written if the chooser gives nothing and the next token would extend the one before (`must-part`). Whether a dot
/// would extend the digits before it depends on the next gap: `x.0.y` is written if the chooser gives nothing there,
/// and `x.0 . y` if it gives a space after the dot only. So the text is a layout of the stream and reads back to it up
/// to spans, whatever the chooser gives.
///
/// Returns `NotWellSpaced` exactly if the stream isn't `well-spaced`, and `Memory` if memory runs out. The call takes
/// time proportional to the length of the text.
///
/// # Contract
///
/// - `ensures written`: <code>[IfOk] result (λ text. [IsWritten] C.gap_gives chooser.old chooser.new stream.now
///   ([chars] ([string_bytes] text)))</code>
/// - `ensures layout`: <code>[IfOk] result (λ text. [IsLayout] stream.now ([chars] ([string_bytes]
///   text)))</code>
/// - `ensures back`: <code>[IfOk] result (λ text. [ReadsBack] stream.now ([chars] ([string_bytes]
///   text)))</code>
/// - `ensures refused`: <code>(result ≡ [Err] NotWellSpaced) ↔ ([IsWellSpaced] stream.now → ⊥)</code>
/// - `ensures unwritten`: <code>[IfErr] result [IsNoWrite]</code>
///
/// [IfOk]: crate::contracts#std.IfOk
/// [IsWritten]: crate::contracts#layout.Written.IsWritten
/// [chars]: crate::contracts#std.chars
/// [string_bytes]: crate::contracts#std.string_bytes
/// [IsLayout]: crate::contracts#layout.Layout.IsLayout
/// [ReadsBack]: crate::contracts#layout.Writing.ReadsBack
/// [Err]: crate::contracts#std.Err
/// [IsWellSpaced]: crate::contracts#pm_stream.WellSpaced.IsWellSpaced
/// [IfErr]: crate::contracts#std.IfErr
/// [IsNoWrite]: crate::contracts#layout.Writing.IsNoWrite
pub fn text_with<C: Chooser>(
    stream: &TokenStream,
    chooser: &mut C,
) -> Result<String, LayoutError>
{
    if !stream.is_well_spaced() {
        return Err(LayoutError::NotWellSpaced);
    }
    let text = laid_out(stream, chooser)?;
    Ok(text)
}

/// Returns the tokens of a well-spaced stream with the gaps that the chooser gives.
fn laid_out<C: Chooser>(
    stream: &TokenStream,
    chooser: &mut C,
) -> Result<String, AllocError>
{
    let mut text = TextBuilder::with_room(0)?;
    let mut steps = stream.steps();
    let mut before = None;
    let mut depth: usize = 0;
    // Whether `before` is a dot that is not written yet.
    let mut held = false;
    while let Some(step) = steps.try_next()? {
        let place = GapContext {
            before,
            after: Some(step),
            depth: depth_at(depth, step),
        };
        let chosen = chooser.gap(place);
        push_fitting(&mut text, &mut held, before, chosen, step)?;
        depth = depth_past(depth, step);
        before = Some(step);
    }
    let place = GapContext {
        before,
        after: None,
        depth,
    };
    let last = chooser.gap(place);
    push_end(&mut text, held, last)?;
    Ok(text.into_string())
}

/// Writes the step with the gap before it, after the dot that is held back. If the step is a dot whose gap depends on
/// the text after it, this dot is held back instead.
#[cfg_attr(not(debug_assertions), inline(always))]
fn push_fitting(
    text: &mut TextBuilder,
    held: &mut bool,
    before: Option<Step<'_>>,
    chosen: Gap,
    step: Step<'_>,
) -> Result<(), AllocError>
{
    let Some(gap) = fitting(before, chosen, step) else {
        *held = true;
        return Ok(());
    };
    push_held(text, held, gap, step)?;
    push_gap(text, gap)?;
    push_step(text, step)
}

/// Writes the dot that is held back, if there is one, before this gap and step.
#[cfg_attr(not(debug_assertions), inline(always))]
fn push_held(
    text: &mut TextBuilder,
    held: &mut bool,
    gap: Gap,
    next: Step<'_>,
) -> Result<(), AllocError>
{
    if !*held {
        return Ok(());
    }
    *held = false;
    push_dot(text, gap, next)
}

/// Writes a dot, and a space before it unless this gap and step come after the dot and keep it out of a number.
#[cold]
fn push_dot(text: &mut TextBuilder, gap: Gap, next: Step<'_>) -> Result<(), AllocError>
{
    if frees_dot(gap, next) {
        return text.push('.');
    }
    text.push(' ')?;
    text.push('.')
}

/// Writes the last gap, after the dot that is held back.
fn push_end(text: &mut TextBuilder, held: bool, last: Gap) -> Result<(), AllocError>
{
    if !held {
        return push_gap(text, last);
    }
    text.push(' ')?;
    text.push('.')?;
    push_gap(text, last)
}

/// Returns the depth of the gap before the step, when `depth` groups are open. A gap before a closer counts as outside
/// the closer's group.
fn depth_at(depth: usize, step: Step<'_>) -> usize
{
    match step {
        Step::Leave(..) => depth.saturating_sub(1),
        _ => depth,
    }
}

/// Returns how many groups are open after the step, when `depth` are open before it.
fn depth_past(depth: usize, step: Step<'_>) -> usize
{
    match step {
        Step::Enter(..) => depth.saturating_add(1),
        Step::Leave(..) => depth.saturating_sub(1),
        Step::Token(..) => depth,
    }
}

/// Writes the token, opener or closer.
#[cfg_attr(not(debug_assertions), inline(always))]
fn push_step(text: &mut TextBuilder, step: Step<'_>) -> Result<(), AllocError>
{
    match step {
        Step::Enter(group, _) => push_mark(text, opener(group.delimiter())),
        Step::Leave(group, _) => push_mark(text, closer(group.delimiter())),
        Step::Token(tree, _) => push_tree(text, tree),
    }
}

/// Writes the token, or the group's opener. Names and literals are appended without a copy in between.
#[cfg_attr(not(debug_assertions), inline(always))]
fn push_tree(text: &mut TextBuilder, tree: &TokenTree) -> Result<(), AllocError>
{
    match tree {
        TokenTree::Group(group) => push_mark(text, opener(group.delimiter())),
        TokenTree::Ident(ident) => push_name(text, ident),
        TokenTree::Punct(punct) => text.push(punct.as_char()),
        TokenTree::Literal(literal) => text.push_text(literal.text()),
    }
}

/// Writes the identifier.
#[cfg_attr(not(debug_assertions), inline(always))]
fn push_name(text: &mut TextBuilder, ident: &Ident) -> Result<(), AllocError>
{
    if is_raw(ident) {
        text.push('r')?;
        text.push('#')?;
    }
    text.push_text(name_of(ident))
}

/// Writes the mark of a delimiter, if it has one.
#[cfg_attr(not(debug_assertions), inline(always))]
fn push_mark(text: &mut TextBuilder, mark: Option<char>) -> Result<(), AllocError>
{
    match mark {
        Some(mark) => text.push(mark),
        None => Ok(()),
    }
}

/// The mark that opens a group, if it has one.
pub(crate) fn opener(delimiter: Delimiter) -> Option<char>
{
    match delimiter {
        Delimiter::Parenthesis => Some('('),
        Delimiter::Brace => Some('{'),
        Delimiter::Bracket => Some('['),
        Delimiter::None => None,
    }
}

/// The mark that closes a group, if it has one.
pub(crate) fn closer(delimiter: Delimiter) -> Option<char>
{
    match delimiter {
        Delimiter::Parenthesis => Some(')'),
        Delimiter::Brace => Some('}'),
        Delimiter::Bracket => Some(']'),
        Delimiter::None => None,
    }
}

/// Writes the tokens of the stream with the gaps that the chooser gives, as [`text_with`] returns them.
///
/// Returns `NotWellSpaced` or `Memory`, for the same reasons as [`text_with`], before it writes anything. Returns
/// `Write` if the writer fails: a prefix of the text may have been written then.
///
/// # Contract
///
/// - `ensures ok`: <code>[OnOk] result ([Writes] ([IsWritten] C.gap_gives chooser.old chooser.new stream.now)
///   stream.now (W.contents writer.old) (W.contents writer.new))</code>
/// - `ensures refused`: <code>(result ≡ [Err] NotWellSpaced) ↔ ([IsWellSpaced] stream.now → ⊥)</code>
/// - `ensures untouched`: <code>[IfErr] result (λ error. error ≡ NotWellSpaced → W.contents writer.new ≡
///   W.contents writer.old)</code>
///
/// [OnOk]: crate::contracts#std.OnOk
/// [Writes]: crate::contracts#layout.Written.Writes
/// [IsWritten]: crate::contracts#layout.Written.IsWritten
/// [Err]: crate::contracts#std.Err
/// [IsWellSpaced]: crate::contracts#pm_stream.WellSpaced.IsWellSpaced
/// [IfErr]: crate::contracts#std.IfErr
pub fn write_with<C: Chooser, W: Write>(
    stream: &TokenStream,
    chooser: &mut C,
    writer: &mut W,
) -> Result<(), LayoutError>
{
    let text = text_with(stream, chooser)?;
    match writer.write_all(text.as_str().as_bytes()) {
        Ok(()) => Ok(()),
        Err(error) => Err(LayoutError::Write(error)),
    }
}
