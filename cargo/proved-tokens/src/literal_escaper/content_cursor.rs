// Made from crates/literal_escaper/src/content_cursor.rt by dev/erase: change that file, not this one.
//! A cursor into the content of a literal.

/// A position in the content of a literal.
#[derive(Clone, Copy)]
pub struct ContentCursor<'a> {
    /// The content after the cursor.
    pub rest: &'a str,
    /// How many bytes the whole content has.
    pub end: usize,
    // The rest is valid UTF-8 and no longer than the content.
}

impl<'a> ContentCursor<'a> {
    /// Returns the cursor at the start of a content.
    ///
    /// # Contract
    ///
    /// - `ensures rest`: <code>[chars] result.rest.now ≡ [chars] content.now</code>
    /// - `ensures end`: <code>result.end ≡ [bytes] ([chars] content.now)</code>
    ///
    /// [chars]: crate::contracts#std.chars
    /// [bytes]: crate::contracts#literal_escaper.Text.bytes
    pub fn new(content: &'a str) -> Self
    {
        ContentCursor {
            rest: content,
            end: content.len(),
        }
    }

    /// Returns how many bytes of the content come before the cursor.
    ///
    /// # Contract
    ///
    /// - `ensures`: <code>result ≡ [byte_offset] self.entry.end ([chars] self.entry.rest.now)</code>
    ///
    /// [byte_offset]: crate::contracts#literal_escaper.Items.byte_offset
    /// [chars]: crate::contracts#std.chars
    pub fn byte_offset(self) -> usize
    {
        self.end - self.rest.len()
    }

    /// Returns the next character, and the cursor after it.
    ///
    /// # Contract
    ///
    /// - `ensures`: <code>[MatchOption] result ([chars] self.entry.rest.now ≡ \[\]) (λ x. ([chars]
    ///   self.entry.rest.now ≡ x.0 ∷ [chars] x.1.rest.now) × (x.1.end ≡ self.entry.end))</code>
    ///
    /// [MatchOption]: crate::contracts#std.MatchOption
    /// [chars]: crate::contracts#std.chars
    pub fn advance(self) -> Option<(char, Self)>
    {
        let mut characters = self.rest.chars();
        let first = characters.next()?;
        let after = ContentCursor {
            rest: characters.as_str(),
            end: self.end,
        };
        Some((first, after))
    }
}
