// Made from crates/pm_span/src/byte_index.rt by dev/erase: change that file, not this one.
//! An index that finds byte offsets by character offsets, in a text that isn't ASCII.

use crate::shim::prelude::Grow;

use crate::pm_span::text::{char_count, skip_chars, skip_chars_back};
use crate::shim::alloc::AllocError;
use crate::shim::ops::Range;

/// The number of characters in a block. To find an offset, at most half as many are walked over.
const BLOCK: u32 = 64;

/// A text that isn't ASCII, with the byte offsets of some of its characters.
pub(crate) struct ByteIndex {
    text: String,
    /// The number of characters.
    count: u32,
    /// The byte offset at which each full block ends.
    ends: Vec<usize>,
}

/// One offset of a text, both in characters and in bytes.
#[derive(Clone, Copy)]
struct OffsetPair {
    chars: u32,
    bytes: usize,
}

/// Returns the text after its first 64 characters. The characters in its first 64 bytes are counted quickly, and
/// only the rest are passed one by one.
fn skip_block(text: &str) -> &str
{
    let size = BLOCK as usize;
    if text.is_char_boundary(size) {
        let (front, rest) = text.split_at(size);
        skip_chars(rest, size - char_count(front))
    } else {
        skip_chars(text, size)
    }
}

/// Returns the byte offset at which each full block of the text ends. The text has `count` characters.
fn block_ends(text: &str, count: u32) -> Result<Vec<usize>, AllocError>
{
    let blocks = count / BLOCK;
    let mut ends = Vec::with_capacity_fallibly(blocks as usize)?;
    let mut rest = text;
    for _ in 0..blocks {
        rest = skip_block(rest);
        ends.push_fallibly(text.len() - rest.len())?;
    }
    Ok(ends)
}

/// Returns the one of two known offsets that is nearer to `char_offset`, in characters.
fn nearer(char_offset: u32, first: OffsetPair, second: OffsetPair) -> OffsetPair
{
    if char_offset.abs_diff(first.chars) <= char_offset.abs_diff(second.chars) {
        first
    } else {
        second
    }
}

impl ByteIndex {
    /// Builds the index of a text with `count` characters. Out of memory is the only error.
    pub(crate) fn new(text: String, count: u32) -> Result<ByteIndex, AllocError>
    {
        let ends = block_ends(text.as_str(), count)?;
        Ok(ByteIndex { text, count, ends })
    }

    /// Returns the text.
    pub(crate) fn as_str(&self) -> &str
    {
        self.text.as_str()
    }

    /// Returns the offset at which the block of `char_offset` begins.
    fn block_start(&self, char_offset: u32) -> OffsetPair
    {
        let block = char_offset / BLOCK;
        if block == 0 {
            OffsetPair { chars: 0, bytes: 0 }
        } else {
            OffsetPair {
                chars: block * BLOCK,
                bytes: self.ends[block as usize - 1],
            }
        }
    }

    /// Returns the offset at which the block of `char_offset` ends. If the block isn't full, this is the end of the
    /// text.
    fn block_end(&self, char_offset: u32) -> OffsetPair
    {
        let block = char_offset / BLOCK;
        match self.ends.get(block as usize) {
            Some(bytes) => OffsetPair {
                chars: (block + 1) * BLOCK,
                bytes: *bytes,
            },
            None => OffsetPair {
                chars: self.count,
                bytes: self.text.len(),
            },
        }
    }

    /// Returns the number of bytes before `char_offset`. It counts on from the known offset, or back from it.
    fn count_from(&self, known: OffsetPair, char_offset: u32) -> usize
    {
        if char_offset == known.chars {
            return known.bytes;
        }
        let text = self.text.as_str();
        if char_offset < known.chars {
            let front = skip_chars_back(&text[..known.bytes], (known.chars - char_offset) as usize);
            front.len()
        } else {
            let rest = skip_chars(&text[known.bytes..], (char_offset - known.chars) as usize);
            text.len() - rest.len()
        }
    }

    /// Converts an offset in characters to one in bytes. In a block of ASCII this is an addition. Otherwise it
    /// walks from the nearest of three offsets: both ends of the block, and `known`.
    fn byte_offset(&self, char_offset: u32, known: OffsetPair) -> usize
    {
        let start = self.block_start(char_offset);
        let end = self.block_end(char_offset);
        if end.bytes - start.bytes == (end.chars - start.chars) as usize {
            return start.bytes + (char_offset - start.chars) as usize;
        }
        let nearest = nearer(char_offset, known, nearer(char_offset, start, end));
        self.count_from(nearest, char_offset)
    }

    /// Returns the byte offsets of two character offsets of the text.
    #[inline(never)]
    pub(crate) fn byte_range(&self, start: u32, end: u32) -> Range<usize>
    {
        let front = OffsetPair { chars: 0, bytes: 0 };
        let from = self.byte_offset(start, front);
        let known = OffsetPair {
            chars: start,
            bytes: from,
        };
        from..self.byte_offset(end, known)
    }
}
