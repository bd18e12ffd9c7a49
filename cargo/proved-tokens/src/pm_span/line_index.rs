// Made from crates/pm_span/src/line_index.rt by dev/erase: change that file, not this one.
//! An index that finds the line of a character offset.

use crate::shim::prelude::Grow;

use crate::pm_span::location::LineColumn;
use crate::shim::alloc::AllocError;

/// The usual number of characters in a block.
const BLOCK: u32 = 32;

/// The number of characters in a block if lines are about as short. So no block has many lines.
const SHORT_BLOCK: u32 = 8;

/// With at most this number of line starts, the search needs no blocks.
const FEW_LINES: usize = 4;

/// The offsets at which the lines of a text begin, with counts that make the search for a line short.
pub(crate) struct LineIndex {
    /// The offset after each line feed, in characters.
    starts: Vec<u32>,
    /// For each block of characters, how many lines begin at or before its start; empty if there are few lines.
    blocks: Vec<u32>,
    /// The number of characters in a block.
    block: u32,
}

/// Returns the number of characters in a block, for a text with `count` characters.
fn block_for(line_feeds: usize, count: u32) -> u32
{
    if line_feeds > (count / SHORT_BLOCK) as usize {
        SHORT_BLOCK
    } else {
        BLOCK
    }
}

/// Counts, for each block of `block` characters, how many line starts are at or before the start of the block.
fn count_by_blocks(
    starts: &[u32],
    count: u32,
    block: u32,
) -> Result<Vec<u32>, AllocError>
{
    if starts.len() <= FEW_LINES {
        return Ok(Vec::new());
    }
    let size = count / block;
    let mut blocks = Vec::with_capacity_fallibly(size as usize + 1)?;
    let mut lines = 0;
    let mut block_start = 0u32;
    for _ in 0..size as usize + 1 {
        lines = count_on(starts, lines, block_start);
        blocks.push_fallibly(lines.min(u32::MAX as usize) as u32)?;
        block_start = block_start.saturating_add(block);
    }
    Ok(blocks)
}

/// Returns how many of the offsets, which ascend, are at most `char_offset`. The first `from` of them must be.
fn count_on(offsets: &[u32], from: usize, char_offset: u32) -> usize
{
    let mut count = from;
    while count < offsets.len() && offsets[count] <= char_offset {
        count += 1;
    }
    count
}

/// Returns the number of the block that has the offset, if each block has `block` characters.
fn block_of(char_offset: u32, block: u32) -> u32
{
    // Most texts have blocks of BLOCK characters, and a division by a constant is fast.
    if block == BLOCK {
        char_offset / BLOCK
    } else {
        char_offset / block
    }
}

impl LineIndex {
    /// Builds the index of these ascending line starts, for a text of `count` characters. Out of memory is the only
    /// error.
    #[cfg_attr(not(debug_assertions), inline(always))]
    pub(crate) fn new(starts: Vec<u32>, count: u32) -> Result<LineIndex, AllocError>
    {
        let block = block_for(starts.len(), count);
        let blocks = count_by_blocks(&starts, count, block)?;
        Ok(LineIndex {
            starts,
            blocks,
            block,
        })
    }

    /// Returns the offset after each line feed, in characters.
    pub(crate) fn starts(&self) -> &Vec<u32> {
        &self.starts
    }

    /// Returns how many lines begin at or before the start of the block of `char_offset`; 0 without blocks. A
    /// search for the line may begin there.
    fn lines_before(&self, char_offset: u32) -> usize
    {
        match self.blocks.get(block_of(char_offset, self.block) as usize) {
            Some(lines) => *lines as usize,
            None => 0,
        }
    }

    /// Returns the offset at which the line begins that comes after this number of line feeds, in characters.
    fn line_start(&self, line_feeds: usize) -> u32
    {
        if line_feeds == 0 {
            0
        } else {
            self.starts[line_feeds - 1]
        }
    }

    /// Returns the line and column at an offset of the text, in characters.
    pub(crate) fn line_column(&self, char_offset: u32) -> LineColumn
    {
        let line_feeds = count_on(&self.starts, self.lines_before(char_offset), char_offset);
        let line_start = self.line_start(line_feeds);
        LineColumn {
            line: line_feeds + 1,
            column: (char_offset - line_start) as usize,
        }
    }
}
