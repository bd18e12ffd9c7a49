// Made from crates/lexical/src/skip.rt by dev/erase: change that file, not this one.
//! A step over one character that passes a test.

use crate::lexical::cursor::TextCursor;

/// Returns the cursor after one character if the character passes the test, and otherwise `None`.
///
/// # Contract
///
/// - `requires`: <code>F.IsAlwaysCallable passes</code>
/// - `ensures`: <code>(test : ℕ → [Bool]) → ((c : ℕ) (b : [Bool]) → F.post passes c b → b ≡ test c) → [Reads]
///   ([One] test) at.entry result</code>
///
/// [Bool]: crate::contracts#std.Bool
/// [Reads]: crate::contracts#lexical.RuleMatch.Reads
/// [One]: crate::contracts#lexical.Rule.One
pub fn one<F: Fn(char) -> bool>(at: TextCursor<'_>, passes: F) -> Option<TextCursor<'_>>
{
    let (c, after) = at.advance()?;
    if passes(c) { Some(after) } else { None }
}
