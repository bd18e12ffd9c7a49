// Made from crates/explain/src/quotes.rt by dev/erase: change that file, not this one.
//! Why no piece begins at a single quote.

use crate::explain::reason::Reason;
use crate::explain::single_contents::single_content;
use crate::explain::trouble::Trouble;
use crate::lexical::parts::{Class, TextCursor, begins, name, one, one_that, skip};

/// What kind of literal has single quotes.
#[derive(Clone, Copy)]
pub enum SingleKind {
    /// A character.
    Character,
    /// A byte.
    Byte,
}

/// Whether the character is a pair by itself: any character except `'`, backslash and LF.
fn stands_alone(c: char) -> bool
{
    !matches!(c, '\'' | '\\' | '\n')
}

/// Whether the character may be between two `'` although it is no pair: `'` or LF.
fn is_closed_alone(c: char) -> bool
{
    matches!(c, '\'' | '\n')
}

/// Returns the cursor after a pair: a character except `'`, backslash and LF, or a backslash and a character except LF.
/// Returns `None` where a comment begins.
fn past_single_pair(at: TextCursor<'_>) -> Option<TextCursor<'_>>
{
    if begins(at.rest, "//") || begins(at.rest, "/*") {
        return None;
    }
    match one_that(at, |c| stands_alone(c)) {
        Some(end) => Some(end),
        None => one_that(at.past("\\")?, |c| c != '\n'),
    }
}

/// Returns the cursor after the pairs up to the next `'`, and after that `'`.
fn past_single_pairs(inside: TextCursor<'_>) -> Option<TextCursor<'_>>
{
    let mut end = inside;
    while let Some(after) = past_single_pair(end) {
        end = after;
    }
    end.past("'")
}

/// Returns the cursor after one `'` or LF and the `'` that follows it.
fn past_closed_alone(inside: TextCursor<'_>) -> Option<TextCursor<'_>>
{
    one_that(inside, |c| is_closed_alone(c))?.past("'")
}

/// Returns the cursor after the `'` that closes a character literal.
fn past_single(inside: TextCursor<'_>) -> Option<TextCursor<'_>>
{
    match past_closed_alone(inside) {
        Some(end) => Some(end),
        None => past_single_pairs(inside),
    }
}

/// Returns why no character or byte literal begins at the cursor. `inside` is after its opening quote.
///
/// # Contract
///
/// - `requires opens`: <code>[Passes] [single_opening] at inside</code>
/// - `requires front`: <code>[Passes] ([Exactly] ([single_front] kind)) at inside</code>
/// - `requires none`: <code>[find] ([single_rule] kind) ([chars] at.rest.now) ≡ [None]</code>
/// - `ensures`: <code>[IsTrouble] at.entry result</code>
///
/// [Passes]: crate::contracts#lexical.RuleMatch.Passes
/// [single_opening]: crate::contracts#explain.Shapes.single_opening
/// [Exactly]: crate::contracts#lexical.Rule.Exactly
/// [single_front]: crate::contracts#explain.Shapes.single_front
/// [find]: crate::contracts#lexical.Rule.find
/// [single_rule]: crate::contracts#explain.Shapes.single_rule
/// [chars]: crate::contracts#std.chars
/// [None]: crate::contracts#std.None
/// [IsTrouble]: crate::contracts#explain.Trouble.IsTrouble
pub fn single<'a>(at: TextCursor<'a>, inside: TextCursor<'a>, kind: SingleKind) -> Trouble<'a>
{
    match past_single(inside) {
        Some(end) => single_content(at, inside, end, kind),
        None => Trouble {
            reason: Reason::UnclosedCharacter,
            at,
            after: inside,
        },
    }
}

/// Returns why no raw lifetime begins at the cursor. `inside` is after the `'`, `inner` after `'r#`, and `end` after
/// the name.
fn raw_lifetime<'a>(
    at: TextCursor<'a>,
    inside: TextCursor<'a>,
    inner: TextCursor<'a>,
    end: TextCursor<'a>,
) -> Trouble<'a>
{
    match end.past("'") {
        Some(after) => single_content(at, inside, after, SingleKind::Character),
        None => Trouble {
            reason: Reason::ReservedRawName,
            at,
            after: end,
        },
    }
}

/// Returns why no lifetime of this name begins at the cursor. `inside` is after the `'`, and `end` after the name.
fn lifetime<'a>(at: TextCursor<'a>, inside: TextCursor<'a>, end: TextCursor<'a>) -> Trouble<'a>
{
    if let Some(after) = end.past("'") {
        return single_content(at, inside, after, SingleKind::Character);
    }
    let Some(after) = end.past("#") else {
        unreachable!()
    };
    Trouble {
        reason: Reason::HashAfterLifetime,
        at: end,
        after,
    }
}

/// Returns why no piece begins at the cursor, which is before a `'` and a digit. `inside` is after the `'`, and `first`
/// after the digit.
fn digit_lifetime<'a>(
    at: TextCursor<'a>,
    inside: TextCursor<'a>,
    first: TextCursor<'a>,
) -> Trouble<'a>
{
    let end = skip(first, Class::IdentifierContinue);
    match end.past("'") {
        Some(after) => single_content(at, inside, after, SingleKind::Character),
        None => Trouble {
            reason: Reason::DigitLifetime,
            at,
            after: end,
        },
    }
}

/// Returns why no piece begins at the cursor, which is before a `'`. `inside` is after the `'`.
///
/// # Contract
///
/// - `requires opens`: <code>[Passes] ([Exactly] ([codes] \"\'\")) at inside</code>
/// - `requires lone`: <code>[find_lone_quote] ([chars] at.rest.now) ≡ [None]</code>
/// - `requires none`: <code>[find] [character] ([chars] at.rest.now) ≡ [None]</code>
/// - `ensures`: <code>[IsTrouble] at.entry result</code>
///
/// [Passes]: crate::contracts#lexical.RuleMatch.Passes
/// [Exactly]: crate::contracts#lexical.Rule.Exactly
/// [codes]: crate::contracts#std.codes
/// [find_lone_quote]: crate::contracts#lexical.PieceFinder.find_lone_quote
/// [chars]: crate::contracts#std.chars
/// [None]: crate::contracts#std.None
/// [find]: crate::contracts#lexical.Rule.find
/// [character]: crate::contracts#lexical.SingleQuoted.character
/// [IsTrouble]: crate::contracts#explain.Trouble.IsTrouble
pub fn quote<'a>(at: TextCursor<'a>, inside: TextCursor<'a>) -> Trouble<'a>
{
    if let Some(inner) = at.past("'r#") {
        if let Some(end) = name(inner) {
            return raw_lifetime(at, inside, inner, end);
        }
        let Some(end) = name(inside) else {
            unreachable!()
        };
        return lifetime(at, inside, end);
    }
    if let Some(end) = name(inside) {
        return lifetime(at, inside, end);
    }
    match one(inside, Class::Digit) {
        Some(first) => digit_lifetime(at, inside, first),
        None => single(at, inside, SingleKind::Character),
    }
}
