// Made from crates/token_buffer/src/arguments.rt by dev/erase: change that file, not this one.
//! Finds the end of generic arguments, which are between marks and in no group.

use crate::token_buffer::cursor::{Cursor, TokenText};
use crate::pm_token::Spacing;

impl<'a> Cursor<'a> {
    /// Returns the trees after the generic arguments that come first, or `None` if none come first.
    ///
    /// Generic arguments are a `<` and all trees up to its `>`. A `>` closes the last open `<`, unless it is that
    /// of `->`. If more than 4294967295 are open, the result is `None`. The time is proportional to the number of
    /// trees passed.
    ///
    /// `<Vec<T>, fn() -> T> (x)` gives `(x)`. `< (x)` gives `None`.
    ///
    /// # Contract
    ///
    /// - `ensures`: <code>[MatchOption] result ([after_arguments] ([left] self.entry) ≡ [None]) (λ rest.
    ///   [after_arguments] ([left] self.entry) ≡ [Some] ([left] rest))</code>
    ///
    /// [MatchOption]: crate::contracts#std.MatchOption
    /// [after_arguments]: crate::contracts#token_buffer.Arguments.after_arguments
    /// [left]: crate::contracts#token_buffer.Reads.left
    /// [None]: crate::contracts#std.None
    /// [Some]: crate::contracts#std.Some
    pub fn generic_arguments(self) -> Option<Cursor<'a>>
    {
        let Some(('<', _, inside)) = self.punct() else {
            return None;
        };
        let mut here = inside;
        let mut depth = 0u32;
        let mut arrow = false;
        while let Some((first, after)) = here.next() {
            let begins = begins_arrow(first);
            if is_mark(first, '<') {
                depth = depth.checked_add(1)?;
            } else if is_mark(first, '>') && !arrow {
                if depth == 0 {
                    return Some(after);
                }
                depth -= 1;
            }
            arrow = begins;
            here = after;
        }
        None
    }

    /// Returns the trees after the turbofish that comes first, or `None` if none does. A turbofish is `::` and
    /// [`generic_arguments`](Cursor::generic_arguments).
    ///
    /// `::<T>(x)` gives `(x)`. `::f` gives `None`.
    ///
    /// # Contract
    ///
    /// - `ensures`: <code>[MatchOption] result ([after_turbofish] ([left] self.entry) ≡ [None]) (λ rest.
    ///   [after_turbofish] ([left] self.entry) ≡ [Some] ([left] rest))</code>
    ///
    /// [MatchOption]: crate::contracts#std.MatchOption
    /// [after_turbofish]: crate::contracts#token_buffer.Arguments.after_turbofish
    /// [left]: crate::contracts#token_buffer.Reads.left
    /// [None]: crate::contracts#std.None
    /// [Some]: crate::contracts#std.Some
    pub fn turbofish(self) -> Option<Cursor<'a>>
    {
        let Some((':', Spacing::Joint, colon)) = self.punct() else {
            return None;
        };
        let Some((':', _, arguments)) = colon.punct() else {
            return None;
        };
        arguments.generic_arguments()
    }
}

/// Returns whether the tree is this mark.
fn is_mark(text: TokenText<'_>, mark: char) -> bool
{
    matches!(text, TokenText::Punct(found, _) if found == mark)
}

/// Returns whether the tree is a `Joint` `-`.
fn begins_arrow(text: TokenText<'_>) -> bool
{
    matches!(text, TokenText::Punct('-', Spacing::Joint))
}
