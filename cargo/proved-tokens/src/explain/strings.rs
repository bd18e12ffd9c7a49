// Made from crates/explain/src/strings.rt by dev/erase: change that file, not this one.
//! Why no string begins at what opens one.

use crate::explain::contents::string_content;
use crate::explain::raw_contents::raw_content;
use crate::explain::reason::Reason;
use crate::explain::trouble::Trouble;
use crate::lexical::parts::{
    Class, StringKind, TextCursor, before, begins, one_that, skip, skip_to, skip_to_either,
};

/// Whether the character is a pair by itself: any character except `"` and backslash.
fn stands_alone(c: char) -> bool
{
    !matches!(c, '"' | '\\')
}

/// Returns the cursor after a pair: a character except `"` and backslash, or a backslash and any character.
fn past_pair(at: TextCursor<'_>) -> Option<TextCursor<'_>>
{
    match one_that(at, |c| stands_alone(c)) {
        Some(end) => Some(end),
        None => one_that(at.past("\\")?, |_| true),
    }
}

/// Returns the cursor after the first `"` that has no backslash before it in a pair.
fn past_quote(inside: TextCursor<'_>) -> Option<TextCursor<'_>>
{
    let mut end = skip_to_either(inside, b'"', b'\\');
    while let Some(after) = past_pair(end) {
        end = skip_to_either(after, b'"', b'\\');
    }
    end.past("\"")
}

/// Returns the cursor after a character, or `None` where the closing quote and hash signs of the raw string are.
fn past_raw_unit<'a>(at: TextCursor<'a>, hashes: &str) -> Option<TextCursor<'a>>
{
    let (c, after) = at.advance()?;
    if c == '"' && begins(after.rest, hashes) {
        return None;
    }
    Some(after)
}

/// Returns the cursor after the first `"` with these hash signs after it, and after the hash signs.
fn past_raw_quote<'a>(inside: TextCursor<'a>, hashes: &str) -> Option<TextCursor<'a>>
{
    let mut end = skip_to(inside, b'"');
    while let Some(after) = past_raw_unit(end, hashes) {
        end = skip_to(after, b'"');
    }
    end.past("\"")?.past(hashes)
}

/// Returns why no string of this kind begins at the cursor. `inside` is after its opening quote.
///
/// # Contract
///
/// - `requires opens`: <code>[Passes] ([Exactly] ([front] kind)) at inside</code>
/// - `requires none`: <code>[find] ([cooked_string] kind) ([chars] at.rest.now) ≡ [None]</code>
/// - `ensures`: <code>[IsTrouble] at.entry result</code>
///
/// [Passes]: crate::contracts#lexical.RuleMatch.Passes
/// [Exactly]: crate::contracts#lexical.Rule.Exactly
/// [front]: crate::contracts#lexical.Quoted.front
/// [find]: crate::contracts#lexical.Rule.find
/// [cooked_string]: crate::contracts#lexical.Quoted.cooked_string
/// [chars]: crate::contracts#std.chars
/// [None]: crate::contracts#std.None
/// [IsTrouble]: crate::contracts#explain.Trouble.IsTrouble
pub fn string<'a>(at: TextCursor<'a>, inside: TextCursor<'a>, kind: StringKind) -> Trouble<'a>
{
    match past_quote(inside) {
        Some(end) => string_content(at, inside, end, kind),
        None => Trouble {
            reason: Reason::UnclosedString,
            at,
            after: inside,
        },
    }
}

/// Returns why no raw string of this kind begins at the cursor. `inside` is after its letters.
///
/// # Contract
///
/// - `requires letters`: <code>[Passes] ([Exactly] ([raw_front] kind)) at inside</code>
/// - `requires name`: <code>[find] [raw_name_start] ([chars] at.rest.now) ≡ [None]</code>
/// - `requires identifier`: <code>[found_identifier] ([chars] at.rest.now) ≡ [None]</code>
/// - `requires none`: <code>[find] ([raw_rule] kind) ([chars] at.rest.now) ≡ [None]</code>
/// - `ensures`: <code>[IsTrouble] at.entry result</code>
///
/// [Passes]: crate::contracts#lexical.RuleMatch.Passes
/// [Exactly]: crate::contracts#lexical.Rule.Exactly
/// [raw_front]: crate::contracts#lexical.RawString.raw_front
/// [find]: crate::contracts#lexical.Rule.find
/// [raw_name_start]: crate::contracts#explain.Shapes.raw_name_start
/// [chars]: crate::contracts#std.chars
/// [None]: crate::contracts#std.None
/// [found_identifier]: crate::contracts#lexical.PieceFinder.found_identifier
/// [raw_rule]: crate::contracts#lexical.RawString.raw_string
/// [IsTrouble]: crate::contracts#explain.Trouble.IsTrouble
pub fn raw_string<'a>(at: TextCursor<'a>, inside: TextCursor<'a>, kind: StringKind) -> Trouble<'a>
{
    let quote = skip(inside, Class::Hash);
    let Some(body) = quote.past("\"") else {
        return without_quote(at, inside, quote, kind);
    };
    let hashes = before(inside.rest, quote.rest);
    let Some(end) = past_raw_quote(body, hashes) else {
        return Trouble {
            reason: Reason::UnclosedRawString,
            at,
            after: body,
        };
    };
    if hashes.len() > MOST_HASHES {
        return Trouble {
            reason: Reason::TooManyHashes,
            at,
            after: body,
        };
    }
    raw_content(at, inside, quote, body, end, hashes, kind)
}

/// The largest number of hash signs that a raw string may have.
const MOST_HASHES: usize = 255;

/// Returns the trouble for hash signs, from `inside` to `end`, with no quote after them.
fn without_quote<'a>(
    at: TextCursor<'a>,
    inside: TextCursor<'a>,
    end: TextCursor<'a>,
    kind: StringKind,
) -> Trouble<'a>
{
    let Some(after) = past_other(end) else {
        unreachable!()
    };
    Trouble {
        reason: Reason::HashesWithoutQuote,
        at: end,
        after,
    }
}

/// Returns the cursor after a character except `"`, or `at` itself at the end of the text. Returns `None` before a `"`.
fn past_other(at: TextCursor<'_>) -> Option<TextCursor<'_>>
{
    if begins(at.rest, "\"") {
        return None;
    }
    match one_that(at, |_| true) {
        Some(end) => Some(end),
        None => Some(at),
    }
}
