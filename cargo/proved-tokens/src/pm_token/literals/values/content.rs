// Made from crates/pm_token/src/literals/values/content.rt by dev/erase: change that file, not this one.
//! Finds the content of a literal, which is the text between its quotes.

/// Returns the text after this ASCII prefix.
fn past_prefix<'a>(text: &'a str, front: &str) -> Option<&'a str>
{
    text.strip_prefix(front)
}

/// Returns the text before a quote at its end.
fn before_quote(text: &str) -> Option<&str>
{
    text.strip_suffix('"')
}

/// Returns the text after this ASCII prefix and before a quote at its end (`cooked-content`).
///
/// # Contract
///
/// - `requires`: <code>[IsTrue] ([all_ascii] front.now)</code>
/// - `ensures`: <code>[MatchOption] result ([cooked] front.now ([chars] text.now) ≡ [None]) (λ content.
///   [cooked] front.now ([chars] text.now) ≡ [Some] ([chars] content.now))</code>
///
/// [IsTrue]: crate::contracts#std.IsTrue
/// [all_ascii]: crate::contracts#lexical.Ascii.all_ascii
/// [MatchOption]: crate::contracts#std.MatchOption
/// [cooked]: crate::contracts#pm_token.Content.cooked_content
/// [chars]: crate::contracts#std.chars
/// [None]: crate::contracts#std.None
/// [Some]: crate::contracts#std.Some
pub fn cooked_content<'a>(text: &'a str, front: &str) -> Option<&'a str>
{
    before_quote(past_prefix(text, front)?)
}

/// Returns the text before a single quote at its end.
fn before_single_quote(text: &str) -> Option<&str>
{
    text.strip_suffix('\'')
}

/// Returns the text after this ASCII prefix and before a single quote at its end (`single-content`).
///
/// # Contract
///
/// - `requires`: <code>[IsTrue] ([all_ascii] front.now)</code>
/// - `ensures`: <code>[MatchOption] result ([single] front.now ([chars] text.now) ≡ [None]) (λ content.
///   [single] front.now ([chars] text.now) ≡ [Some] ([chars] content.now))</code>
///
/// [IsTrue]: crate::contracts#std.IsTrue
/// [all_ascii]: crate::contracts#lexical.Ascii.all_ascii
/// [MatchOption]: crate::contracts#std.MatchOption
/// [single]: crate::contracts#pm_token.SingleValue.single_content
/// [chars]: crate::contracts#std.chars
/// [None]: crate::contracts#std.None
/// [Some]: crate::contracts#std.Some
pub fn single_content<'a>(text: &'a str, front: &str) -> Option<&'a str>
{
    before_single_quote(past_prefix(text, front)?)
}

/// Returns the text before a hash sign at its end.
fn before_hash(text: &str) -> Option<&str>
{
    text.strip_suffix('#')
}

/// Returns the text between quotes that have equally many hash signs outside of them.
fn hashed_content(text: &str) -> Option<&str>
{
    let mut quoted = text;
    while let Some(after_hash) = past_prefix(quoted, "#") {
        quoted = before_hash(after_hash)?;
    }
    cooked_content(quoted, "\"")
}

/// Returns the text after this ASCII prefix, without its quotes and hash signs (`raw-content`).
///
/// # Contract
///
/// - `requires`: <code>[IsTrue] ([all_ascii] front.now)</code>
/// - `ensures`: <code>[MatchOption] result ([raw] front.now ([chars] text.now) ≡ [None]) (λ content. [raw]
///   front.now ([chars] text.now) ≡ [Some] ([chars] content.now))</code>
///
/// [IsTrue]: crate::contracts#std.IsTrue
/// [all_ascii]: crate::contracts#lexical.Ascii.all_ascii
/// [MatchOption]: crate::contracts#std.MatchOption
/// [raw]: crate::contracts#pm_token.Content.raw_content
/// [chars]: crate::contracts#std.chars
/// [None]: crate::contracts#std.None
/// [Some]: crate::contracts#std.Some
pub fn raw_content<'a>(text: &'a str, front: &str) -> Option<&'a str>
{
    hashed_content(past_prefix(text, front)?)
}
