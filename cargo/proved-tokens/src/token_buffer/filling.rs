// Made from crates/token_buffer/src/filling.rt by dev/erase: change that file, not this one.
//! Makes the entries of a buffer from the tokens of its text.

use crate::shim::prelude::Grow;

use crate::token_buffer::entry::Entry;
use crate::pm_stream::reading::{Lexed, TokenSink};
use crate::pm_token::Delimiter;
use crate::shim::alloc::AllocError;

/// One more than the largest number of entries that an opener can count.
const COUNTS: usize = u32::MAX as usize + 1;

/// A buffer while its text is read.
pub struct Filling<'t> {
    /// The whole text.
    pub text: &'t str,
    /// The entries of all tokens so far.
    pub entries: Vec<Entry>,
}

/// A group whose closer is still to come.
pub struct OpenGroup {
    /// The delimiter of the group.
    delimiter: Delimiter,
    /// The position of its opener.
    lo: u32,
    /// The index of its opener's entry.
    index: usize,
}

impl<'t> TokenSink for Filling<'t> {
    type Opened = OpenGroup;

    #[cfg_attr(not(debug_assertions), inline(always))]
    fn opener(group: &OpenGroup) -> (Delimiter, u32)
    {
        (group.delimiter, group.lo)
    }

    #[cfg_attr(not(debug_assertions), inline(always))]
    fn mark(&mut self, lexed: Lexed<'_>, joint: bool, mark: char) -> Result<(), AllocError> {
        let at = lexed.at;
        let end = at + lexed.piece.chars as u32;
        self.push(Entry::Mark {
            joint,
            mark,
            at,
            end,
        })
    }

    #[cfg_attr(not(debug_assertions), inline(always))]
    fn name(&mut self, lexed: Lexed<'_>, raw: bool, name: &str) -> Result<(), AllocError> {
        let (_, hi) = self.bytes(lexed);
        let lo = hi - name.len() as u32;
        self.push(Entry::Name {
            raw,
            lo,
            hi,
            at: lexed.at,
        })
    }

    #[cfg_attr(not(debug_assertions), inline(always))]
    fn literal(&mut self, lexed: Lexed<'_>) -> Result<(), AllocError> {
        let (lo, hi) = self.bytes(lexed);
        self.push(Entry::Literal {
            lo,
            hi,
            at: lexed.at,
        })
    }

    #[cfg_attr(not(debug_assertions), inline(always))]
    fn doc(&mut self, lexed: Lexed<'_>, inner: bool, doc_body: &str) -> Result<(), AllocError> {
        let at = lexed.at;
        let end = at + lexed.piece.chars as u32;
        let (begin, _) = self.bytes(lexed);
        let lo = begin + 3;
        let text = Entry::DocText {
            closing: (lexed.piece.bytes - 3 - doc_body.len()) as u8,
            lo,
            hi: lo + doc_body.len() as u32,
            at,
        };
        self.push_doc(inner, text, at, end)
    }

    #[cfg_attr(not(debug_assertions), inline(always))]
    fn gap(&mut self, _lexed: Lexed<'_>) {}

    #[cfg_attr(not(debug_assertions), inline(always))]
    fn white(&mut self, _text: &str, _size: usize) {}

    #[cfg_attr(not(debug_assertions), inline(always))]
    fn open(&mut self, lexed: Lexed<'_>, delimiter: Delimiter) -> Result<OpenGroup, AllocError> {
        let lo = lexed.at;
        let index = self.entries.len();
        self.push(Entry::Open {
            delimiter,
            at: lo,
            count: 0,
        })?;
        Ok(OpenGroup {
            delimiter,
            lo,
            index,
        })
    }

    #[cfg_attr(not(debug_assertions), inline(always))]
    fn close(
        &mut self,
        lexed: Lexed<'_>,
        delimiter: Delimiter,
        group: OpenGroup,
    ) -> Result<(), AllocError> {
        let inside = self.entries.len() - group.index - 1;
        self.entries[group.index] = Entry::Open {
            delimiter,
            at: group.lo,
            // The count of a longer group is wrong, but a buffer with so many entries is never returned.
            count: (inside % COUNTS) as u32,
        };
        self.push(Entry::Close {
            delimiter,
            end: lexed.at + 1,
        })
    }
}

impl<'t> Filling<'t> {
    /// Adds an entry.
    #[cfg_attr(not(debug_assertions), inline(always))]
    fn push(&mut self, entry: Entry) -> Result<(), AllocError>
    {
        self.entries.push_fallibly(entry)?;
        Ok(())
    }

    /// Adds a doc comment: the mark `#`, the mark `!` if it is inner, and the group with its text.
    // Out of line, since few pieces are doc comments. If it took a `Lexed`, that of every piece would be put in
    // memory.
    #[inline(never)]
    fn push_doc(&mut self, inner: bool, text: Entry, at: u32, end: u32) -> Result<(), AllocError>
    {
        self.push(alone('#', at, end))?;
        if inner {
            self.push(alone('!', at, end))?;
        }
        self.push(Entry::Open {
            delimiter: Delimiter::Bracket,
            at,
            count: 3,
        })?;
        self.push(Entry::DocName { at, end })?;
        self.push(alone('=', at, end))?;
        self.push(text)?;
        self.push(Entry::Close {
            delimiter: Delimiter::Bracket,
            end,
        })
    }

    /// Returns the byte offsets at which a piece begins and ends.
    #[cfg_attr(not(debug_assertions), inline(always))]
    fn bytes(&self, lexed: Lexed<'_>) -> (u32, u32)
    {
        let lo = (self.text.len() - lexed.text.len()) as u32;
        (lo, lo + lexed.piece.bytes as u32)
    }
}

/// Makes the entry of a mark that isn't `Joint`.
fn alone(mark: char, at: u32, end: u32) -> Entry
{
    Entry::Mark {
        joint: false,
        mark,
        at,
        end,
    }
}
