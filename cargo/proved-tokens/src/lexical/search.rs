// Made from crates/lexical/src/search.rt by dev/erase: change that file, not this one.
//! Searches for an ASCII character.
//!
//! The search looks at bytes. No byte of another character is below 0x80, so it finds only the ASCII character.

use crate::lexical::cursor::TextCursor;
use crate::shim::memchr::{memchr, memchr2};

/// Returns the cursor at the first `stop`, an ASCII character, or at the end of the text if there is none.
///
/// # Contract
///
/// - `requires`: <code>stop &lt; 128</code>
/// - `ensures`: <code>[Passes] ([Run] (λ c. [not] (c == stop))) at.entry result</code>
///
/// [Passes]: crate::contracts#lexical.RuleMatch.Passes
/// [Run]: crate::contracts#lexical.Rule.Run
/// [not]: crate::contracts#std.not
pub fn skip_to(at: TextCursor<'_>, stop: u8) -> TextCursor<'_>
{
    let bytes = at.rest.as_bytes();
    let size = memchr(stop, bytes).unwrap_or(bytes.len());
    at.after_bytes(size)
}

/// Returns the text from the first `stop` on, an ASCII character, or the empty end of the text if there is none. It
/// counts no characters.
///
/// # Contract
///
/// - `requires`: <code>stop &lt; 128</code>
/// - `ensures rest`: <code>[chars] result.now ≡ [while_rest] (λ c. [not] (c == stop)) ([chars] text.now)</code>
/// - `ensures utf8`: <code>[IsUtf8] result.now</code>
///
/// [chars]: crate::contracts#std.chars
/// [while_rest]: crate::contracts#lexical.Finder.while_rest
/// [not]: crate::contracts#std.not
/// [IsUtf8]: crate::contracts#std.IsUtf8
pub fn from_first(text: &str, stop: u8) -> &str
{
    let bytes = text.as_bytes();
    let before = memchr(stop, bytes).unwrap_or(bytes.len());
    &text[before..]
}

/// Returns the cursor at the first `a` or `b`, two ASCII characters, or at the end of the text if there is none.
///
/// # Contract
///
/// - `requires ascii_a`: <code>a &lt; 128</code>
/// - `requires ascii_b`: <code>b &lt; 128</code>
/// - `ensures`: <code>[Passes] ([Run] (λ c. [not] (c == a \|\| c == b))) at.entry result</code>
///
/// [Passes]: crate::contracts#lexical.RuleMatch.Passes
/// [Run]: crate::contracts#lexical.Rule.Run
/// [not]: crate::contracts#std.not
pub fn skip_to_either(at: TextCursor<'_>, a: u8, b: u8) -> TextCursor<'_>
{
    let bytes = at.rest.as_bytes();
    let size = memchr2(a, b, bytes).unwrap_or(bytes.len());
    at.after_bytes(size)
}
