// Made from crates/token_buffer/src/buffer.rt by dev/erase: change that file, not this one.
//! The tokens of a text, one after another.

use crate::shim::prelude::Grow;

use crate::token_buffer::cursor::Cursor;
use crate::token_buffer::entry::Entry;
use crate::token_buffer::errors::BufferError;
use crate::token_buffer::filling::Filling;
use crate::pm_span::parts::fits_new;
use crate::pm_stream::reading::read;
use crate::pm_token::ParseError;

/// The tokens of a text, which [`Cursor`](crate::token_buffer::Cursor)s read.
///
/// The buffer takes 16 bytes for each token, and for each start and each end of a group. The text of each token
/// stays in the source.
pub struct TokenBuffer<'a> {
    text: &'a str,
    entries: Vec<Entry>,
}

impl<'a> TokenBuffer<'a> {
    /// Reads the tokens of a text, which are those of the stream that it parses to (`parses-to`).
    ///
    /// Positions are those of a new map, in which the text begins at 1. Syntax errors are those of
    /// `TokenStream::parse_unmapped`.
    ///
    /// `TooLong` comes if the text has more than 4294967295 bytes, or is valid and has more tokens than that; each
    /// end of a group counts as a token. A text with fewer bytes gives `Parse(MapFull)` exactly if it has too many
    /// characters for a new map (`fits`). `Parse(Memory)` comes if memory runs out.
    ///
    /// `a += (b)` has the identifier `a`, the marks `+` and `=`, and the group of `b`.
    ///
    /// # Contract
    ///
    /// - `ensures ok`: <code>[IfOk] result (λ buffer. [ParsesTo] ([next_lo] [new_map]) ([chars] text.now)
    ///   buffer)</code>
    /// - `ensures fault`: <code>[ReportsFault] [IfFault] ([next_lo] [new_map]) ([chars] text.now) result</code>
    /// - `ensures map_full`: <code>(result ≡ [Err] (BufferError.Parse ParseError.MapFull)) ↔ (([length] text.now
    ///   &lt; 2 ^ 32) × ([Fits] [new_map] ([length] ([chars] text.now)) → ⊥))</code>
    /// - `ensures few`: <code>[IfOk] result (λ buffer. ([length] text.now &lt; 2 ^ 32) × ([length] ([flattening]
    ///   buffer) &lt; 2 ^ 32))</code>
    /// - `ensures many`: <code>[IfErr] result (λ error. [IfTooLong] error ((2 ^ 32 ≤ [length] text.now) ⊎
    ///   [HasManyTokens] ([next_lo] [new_map]) ([chars] text.now)))</code>
    ///
    /// [IfOk]: crate::contracts#std.IfOk
    /// [ParsesTo]: crate::contracts#pm_stream.Parsing.ParsesTo
    /// [next_lo]: crate::contracts#pm_span.Files.next_lo
    /// [new_map]: crate::contracts#pm_span.Files.new_map
    /// [chars]: crate::contracts#std.chars
    /// [ReportsFault]: crate::contracts#pm_stream.Parsing.ReportsFault
    /// [IfFault]: crate::contracts#token_buffer.Refused.IfFault
    /// [Err]: crate::contracts#std.Err
    /// [length]: crate::contracts#std.length
    /// [Fits]: crate::contracts#pm_span.Files.Fits
    /// [flattening]: crate::contracts#pm_stream.Forest.flattening
    /// [IfErr]: crate::contracts#std.IfErr
    /// [IfTooLong]: crate::contracts#token_buffer.Refused.IfTooLong
    /// [HasManyTokens]: crate::contracts#token_buffer.Many.HasManyTokens
    pub fn new(text: &'a str) -> Result<TokenBuffer<'a>, BufferError>
    {
        if text.len() > u32::MAX as usize {
            return Err(BufferError::TooLong);
        }
        let Some(lo) = fits_new(text) else {
            return Err(BufferError::Parse(ParseError::MapFull));
        };
        let mut filling = Filling {
            text,
            // In source code a token has about four bytes, with the white space after it.
            entries: Vec::with_capacity_fallibly(text.len() / 4)?,
        };
        read(lo, text, &mut filling)?;
        let Filling { text, entries } = filling;
        if entries.len() > u32::MAX as usize {
            return Err(BufferError::TooLong);
        }
        Ok(TokenBuffer { text, entries })
    }

    /// Returns a cursor over all trees of the buffer.
    ///
    /// # Contract
    ///
    /// - `ensures`: <code>[left] result ≡ self.now</code>
    ///
    /// [left]: crate::contracts#token_buffer.Reads.left
    pub fn begin(&self) -> Cursor<'_>
    {
        Cursor::over(self.text, self.entries.as_slice())
    }
}
