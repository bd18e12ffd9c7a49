// Made from crates/token_buffer/src/part.rt by dev/erase: change that file, not this one.
//! The content of an entry, without its position.

use crate::token_buffer::cursor::{LiteralText, Name};
use crate::token_buffer::entry::Entry;
use crate::pm_token::Delimiter;

/// The content of an entry: a token, or the start or the end of a group.
#[derive(Clone, Copy)]
pub enum Part<'a> {
    /// An identifier.
    Ident(Name<'a>),
    /// A mark, and whether it is `Joint`.
    Punct(char, bool),
    /// A literal.
    Literal(LiteralText<'a>),
    /// The start of a group.
    Open(Delimiter),
    /// The end of a group.
    Close(Delimiter),
}

/// Returns the content of an entry.
///
/// # Contract
///
/// - `requires`: <code>[IsWithin] text.now entry</code>
/// - `ensures`: <code>[part_event] result ≡ [at_zero] ([event_of] text.now entry)</code>
///
/// [IsWithin]: crate::contracts#token_buffer.Entries.IsWithin
/// [part_event]: crate::contracts#token_buffer.Parts.part_event
/// [at_zero]: crate::contracts#token_buffer.Parts.at_zero
/// [event_of]: crate::contracts#token_buffer.Entries.event_of
#[cfg_attr(not(debug_assertions), inline(always))]
pub fn part_of(text: &str, entry: Entry) -> Part<'_>
{
    match entry {
        Entry::Name { raw, lo, hi, at } => {
            let _ = at;
            Part::Ident(Name {
                raw,
                text: &text[lo as usize..hi as usize],
            })
        }
        Entry::Mark {
            joint,
            mark,
            at,
            end,
        } => {
            let _ = at;
            let _ = end;
            Part::Punct(mark, joint)
        }
        Entry::Literal { lo, hi, at } => {
            let _ = at;
            Part::Literal(LiteralText::Source(&text[lo as usize..hi as usize]))
        }
        Entry::Open {
            delimiter,
            at,
            count,
        } => {
            let _ = at;
            let _ = count;
            Part::Open(delimiter)
        }
        Entry::Close { delimiter, end } => {
            let _ = end;
            Part::Close(delimiter)
        }
        Entry::DocName { at, end } => {
            let _ = at;
            let _ = end;
            Part::Ident(Name {
                raw: false,
                text: "doc",
            })
        }
        Entry::DocText {
            closing,
            lo,
            hi,
            at,
        } => {
            let _ = closing;
            let _ = at;
            Part::Literal(LiteralText::Doc(&text[lo as usize..hi as usize]))
        }
    }
}
