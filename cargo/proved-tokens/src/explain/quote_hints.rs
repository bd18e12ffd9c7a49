// Made from crates/explain/src/quote_hints.rt by dev/erase: change that file, not this one.
//! Finds the quote that came nearest to ending a raw string.

use crate::lexical::parts::{Class, TextCursor, skip, skip_to};

/// Returns the cursors before and after the quote with the most hash signs right after it, together with these. Of
/// several such quotes it is the first.
///
/// # Contract
///
/// - `ensures`: <code>[MatchOption] result ([HasNone] ([Stands] ([closed_raw_body] \[\])) ([chars]
///   inside.entry.rest.now)) (λ x. [CameNearest] inside.entry x.0 x.1)</code>
///
/// [MatchOption]: crate::contracts#std.MatchOption
/// [HasNone]: crate::contracts#lexical.Form.HasNone
/// [Stands]: crate::contracts#lexical.Rule.Stands
/// [closed_raw_body]: crate::contracts#explain.Shapes.closed_raw_body
/// [chars]: crate::contracts#std.chars
/// [CameNearest]: crate::contracts#explain.HintWalk.CameNearest
pub fn nearest(inside: TextCursor<'_>) -> Option<(TextCursor<'_>, TextCursor<'_>)>
{
    let mut best = None;
    let mut quote = skip_to(inside, b'"');
    while let Some(after) = quote.past("\"") {
        let end = skip(after, Class::Hash);
        best = longer(best, quote, end);
        quote = skip_to(end, b'"');
    }
    best
}

/// Returns the pair of cursors with more characters between them: `best`, or `from` and `to`. If both have the same
/// number, it is `best`.
fn longer<'a>(
    best: Option<(TextCursor<'a>, TextCursor<'a>)>,
    from: TextCursor<'a>,
    to: TextCursor<'a>,
) -> Option<(TextCursor<'a>, TextCursor<'a>)>
{
    match best {
        Some((first, end))
            if to.chars_before - from.chars_before <= end.chars_before - first.chars_before => best,
        _ => Some((from, to)),
    }
}
