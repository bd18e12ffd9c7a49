// Made from crates/lexical/src/cursor.rt by dev/erase: change that file, not this one.
//! Cursors into a text.

use crate::lexical::text::{char_count, split_first, strip};

/// The rest of a text, and how many characters come before it.
#[derive(Clone, Copy)]
pub struct TextCursor<'a> {
    /// The text after the cursor.
    pub rest: &'a str,
    /// How many characters of the text come before the cursor.
    pub chars_before: usize,
    // The rest is valid UTF-8, and the count of characters cannot overflow.
}

impl<'a> TextCursor<'a> {
    /// Returns the cursor at the start of a text.
    ///
    /// # Contract
    ///
    /// - `ensures rest`: <code>result.rest.now ≡ text.now</code>
    /// - `ensures chars`: <code>result.chars_before ≡ 0</code>
    #[cfg_attr(not(debug_assertions), inline(always))]
    pub fn new(text: &'a str) -> Self
    {
        // The contract of `iter` bounds how many bytes a text has, and so how many characters.
        let _bytes = text.as_bytes().iter();
        TextCursor {
            rest: text,
            chars_before: 0,
        }
    }

    /// Returns the next character, and the cursor after it.
    ///
    /// # Contract
    ///
    /// - `ensures`: <code>[MatchOption] result ([chars] self.entry.rest.now ≡ \[\]) (λ x. ([chars]
    ///   self.entry.rest.now ≡ x.0 ∷ [chars] x.1.rest.now) × (x.1.chars_before ≡ self.entry.chars_before +
    ///   1))</code>
    ///
    /// [MatchOption]: crate::contracts#std.MatchOption
    /// [chars]: crate::contracts#std.chars
    #[cfg_attr(not(debug_assertions), inline(always))]
    pub fn advance(self) -> Option<(char, Self)>
    {
        let (first, rest) = split_first(self.rest)?;
        let after = TextCursor {
            rest,
            chars_before: self.chars_before + 1,
        };
        Some((first, after))
    }

    /// Returns the cursor after the ASCII text `front`, or `None` if the rest does not begin with it.
    ///
    /// # Contract
    ///
    /// - `requires`: <code>[IsTrue] ([all_ascii] front.now)</code>
    /// - `ensures`: <code>[Reads] ([Exactly] front.now) self.entry result</code>
    ///
    /// [IsTrue]: crate::contracts#std.IsTrue
    /// [all_ascii]: crate::contracts#lexical.Ascii.all_ascii
    /// [Reads]: crate::contracts#lexical.RuleMatch.Reads
    /// [Exactly]: crate::contracts#lexical.Rule.Exactly
    #[cfg_attr(not(debug_assertions), inline(always))]
    pub fn past(self, front: &str) -> Option<Self>
    {
        let rest = strip(self.rest, front)?;
        let after = TextCursor {
            rest,
            chars_before: self.chars_before + front.len(),
        };
        Some(after)
    }

    /// Returns the cursor after the next `size` bytes, which must end between two characters.
    ///
    /// # Contract
    ///
    /// - `requires`: <code>[IsCharBoundary] self.rest.now size</code>
    /// - `ensures rest`: <code>result.rest.now ≡ [drop] size self.entry.rest.now</code>
    /// - `ensures count`: <code>result.chars_before ≡ self.entry.chars_before + [length] ([chars] ([take] size
    ///   self.entry.rest.now))</code>
    ///
    /// [IsCharBoundary]: crate::contracts#std.IsCharBoundary
    /// [drop]: crate::contracts#std.drop
    /// [length]: crate::contracts#std.length
    /// [chars]: crate::contracts#std.chars
    /// [take]: crate::contracts#std.take
    pub fn after_bytes(self, size: usize) -> Self
    {
        TextCursor {
            rest: &self.rest[size..],
            chars_before: self.chars_before + char_count(&self.rest[..size]),
        }
    }

    /// Counts the bytes of `text` before the cursor. The cursor's rest must be a suffix of `text`.
    ///
    /// # Contract
    ///
    /// - `requires`: <code>(front : [List] ℕ) × ([chars] text.now ≡ front ++ [chars] self.rest.now)</code>
    /// - `ensures`: <code>(front : [List] ℕ) → [chars] text.now ≡ front ++ [chars] self.entry.rest.now → result ≡
    ///   [length] ([encode_utf8_all] front)</code>
    ///
    /// [List]: crate::contracts#std.List
    /// [chars]: crate::contracts#std.chars
    /// [length]: crate::contracts#std.length
    /// [encode_utf8_all]: crate::contracts#std.encode_utf8_all
    #[cfg_attr(not(debug_assertions), inline(always))]
    pub fn bytes_in(self, text: &str) -> usize
    {
        text.len() - self.rest.len()
    }
}
