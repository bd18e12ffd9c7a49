// Made from crates/explain/src/explaining.rt by dev/erase: change that file, not this one.
//! Finds the reason why a text doesn't parse.

use crate::explain::explained::{ExplainError, Explained, Opener, Stretch};
use crate::explain::reason::Reason;
use crate::explain::stuck::reason_at;
use crate::lexical::Piece;
use crate::lexical::parts::TextCursor;
use crate::pm_span::parts::{bounds, fits_new, span_of};
use crate::pm_stream::reading::{Ending, Lexed, TokenSink, walk};
use crate::pm_token::Delimiter;
use crate::shim::alloc::AllocError;

/// Returns why a text doesn't parse, or `None` if it parses.
///
/// The spans are those of a new map whose first file is the text. Fails with `MapFull` exactly if the text doesn't fit
/// a new map, and with `Memory` if memory runs out. Only the list of open delimiters is allocated.
///
/// For `a + 0x;` the reason is `NoDigits`, and `at` is `0x`, the bytes 4..6.
///
/// # Contract
///
/// - `ensures answer`: <code>[IfOk] result (λ answer. [MatchOption] answer ([Parses] ([next_lo] [new_map])
///   ([chars] text.now)) ([IsExplained] ([next_lo] [new_map]) ([chars] text.now)))</code>
/// - `ensures map_full`: <code>(result ≡ [Err] ExplainError.MapFull) ↔ ([Fits] [new_map] ([length] ([chars]
///   text.now)) → ⊥)</code>
/// - `ensures fits`: <code>[IfOk] result (λ answer. [Fits] [new_map] ([length] ([chars] text.now)))</code>
///
/// [IfOk]: crate::contracts#std.IfOk
/// [MatchOption]: crate::contracts#std.MatchOption
/// [Parses]: crate::contracts#explain.Explained.Parses
/// [next_lo]: crate::contracts#pm_span.Files.next_lo
/// [new_map]: crate::contracts#pm_span.Files.new_map
/// [chars]: crate::contracts#std.chars
/// [IsExplained]: crate::contracts#explain.Explained.IsExplained
/// [Err]: crate::contracts#std.Err
/// [Fits]: crate::contracts#pm_span.Files.Fits
/// [length]: crate::contracts#std.length
pub fn explain(text: &str) -> Result<Option<Explained>, ExplainError>
{
    let Some(lo) = fits_new(text) else {
        return Err(ExplainError::MapFull);
    };
    Ok(explain_at(lo, text)?)
}

/// Returns why a text doesn't parse that begins at the position `base`, or `None` if it parses.
fn explain_at(base: u32, text: &str) -> Result<Option<Explained>, AllocError>
{
    let mut openers = Openers { text };
    let Ending {
        rest,
        at,
        first,
        opened,
        stray,
    } = walk(base, text, &mut openers)?;
    if let Some(closer) = stray {
        return Ok(Some(explain_closer(text, rest, at, closer, opened)));
    }
    if is_done(rest) {
        return Ok(left_open(opened));
    }
    Ok(Some(stuck(text, rest, at, first, opened)))
}

/// Whether the rest of a text is empty.
fn is_done(rest: &str) -> bool
{
    rest.is_empty()
}

/// A sink that keeps the delimiter and the part of the text of each open opener. It ignores all other tokens.
struct Openers<'a> {
    text: &'a str,
}

impl<'a> TokenSink for Openers<'a> {
    type Opened = Opener;

    #[cfg_attr(not(debug_assertions), inline(always))]
    fn opener(opener: &Opener) -> (Delimiter, u32)
    {
        let (lo, _) = bounds(opener.at.span);
        (opener.delimiter, lo)
    }

    #[cfg_attr(not(debug_assertions), inline(always))]
    fn mark(&mut self, _lexed: Lexed<'_>, _joint: bool, _mark: char) -> Result<(), AllocError> {
        Ok(())
    }

    #[cfg_attr(not(debug_assertions), inline(always))]
    fn name(&mut self, _lexed: Lexed<'_>, _raw: bool, _name: &str) -> Result<(), AllocError> {
        Ok(())
    }

    #[cfg_attr(not(debug_assertions), inline(always))]
    fn literal(&mut self, _lexed: Lexed<'_>) -> Result<(), AllocError> {
        Ok(())
    }

    #[cfg_attr(not(debug_assertions), inline(always))]
    fn doc(&mut self, _lexed: Lexed<'_>, _inner: bool, _doc_body: &str) -> Result<(), AllocError> {
        Ok(())
    }

    #[cfg_attr(not(debug_assertions), inline(always))]
    fn gap(&mut self, _lexed: Lexed<'_>) {}

    #[cfg_attr(not(debug_assertions), inline(always))]
    fn white(&mut self, _text: &str, _size: usize) {}

    #[cfg_attr(not(debug_assertions), inline(always))]
    fn open(&mut self, lexed: Lexed<'_>, delimiter: Delimiter) -> Result<Opener, AllocError> {
        let start = self.text.len() - lexed.text.len();
        let at = Stretch {
            start,
            end: start + lexed.piece.bytes,
            span: lexed.span(),
        };
        Ok(Opener { delimiter, at })
    }

    #[cfg_attr(not(debug_assertions), inline(always))]
    fn close(
        &mut self,
        _lexed: Lexed<'_>,
        _delimiter: Delimiter,
        _opener: Opener,
    ) -> Result<(), AllocError> {
        Ok(())
    }
}

/// Explains that a closer matches no opener, or not the innermost one. The rest of the text begins with the closer, at
/// the position `at`.
fn explain_closer(text: &str, rest: &str, at: u32, closer: Piece, openers: Vec<Opener>) -> Explained
{
    let tail = &rest[closer.bytes..];
    let end = at + closer.chars as u32;
    let mut outer = openers;
    let innermost = outer.pop();
    let reason = match innermost {
        None => Reason::StrayCloser,
        Some(_) => Reason::MismatchedCloser,
    };
    Explained {
        reason,
        before: stretch(text, rest, rest, at, at),
        at: stretch(text, rest, tail, at, end),
        innermost,
        outer,
    }
}

/// Returns the part of a text from where its rest `from` begins, at the position `lo`, to where its rest `to` begins,
/// at the position `hi`.
///
/// # Contract
///
/// - `requires from`: <code>(front : [List] ℕ) × ([chars] text.now ≡ front ++ [chars] from.now)</code>
/// - `requires to`: <code>(part : [List] ℕ) × ([chars] from.now ≡ part ++ [chars] to.now)</code>
/// - `requires ordered`: <code>lo ≤ hi</code>
/// - `ensures`: <code>(base : ℕ) (front part : [List] ℕ) → [chars] text.now ≡ front ++ [chars] from.now →
///   [chars] from.now ≡ part ++ [chars] to.now → lo ≡ base + [length] front → hi ≡ lo + [length] part →
///   [IsStretch] base front part result</code>
///
/// [List]: crate::contracts#std.List
/// [chars]: crate::contracts#std.chars
/// [length]: crate::contracts#std.length
/// [IsStretch]: crate::contracts#explain.Explained.IsStretch
pub fn stretch(text: &str, from: &str, to: &str, lo: u32, hi: u32) -> Stretch
{
    Stretch {
        start: text.len() - from.len(),
        end: text.len() - to.len(),
        span: span_of(lo, hi),
    }
}

/// Explains that an opener is left open at the end of the text. Returns `None` if none is.
fn left_open(openers: Vec<Opener>) -> Option<Explained>
{
    let mut outer = openers;
    let opener = outer.pop()?;
    let at = opener.at;
    let (lo, _) = bounds(at.span);
    Some(Explained {
        reason: Reason::UnclosedOpener,
        before: Stretch {
            start: at.start,
            end: at.start,
            span: span_of(lo, lo),
        },
        at,
        innermost: Some(opener),
        outer,
    })
}

/// Explains that no piece begins at this rest of a text, which is at the position `at`.
fn stuck(text: &str, rest: &str, at: u32, first: bool, openers: Vec<Opener>) -> Explained
{
    let start = TextCursor::new(rest);
    let trouble = reason_at(start, first);
    let lo = at + trouble.at.chars_before as u32;
    let hi = at + trouble.after.chars_before as u32;
    let mut outer = openers;
    let innermost = outer.pop();
    Explained {
        reason: trouble.reason,
        before: stretch(text, rest, trouble.at.rest, at, lo),
        at: stretch(text, trouble.at.rest, trouble.after.rest, lo, hi),
        innermost,
        outer,
    }
}
