// Made from crates/pm_span/src/text_lines.rt by dev/erase: change that file, not this one.
//! One pass over a text, which finds its lines and counts its characters.

use crate::shim::prelude::Grow;

use crate::pm_span::text::{FirstLine, first_line};
use crate::shim::alloc::AllocError;

/// The result of one pass over a text.
pub(crate) struct Lines {
    /// The offset after each line feed, in characters.
    pub(crate) starts: Vec<u32>,
    /// The number of characters in the text.
    pub(crate) count: u32,
}

/// Finds the lines of the text. Out of memory is the only error.
#[cfg_attr(not(debug_assertions), inline(always))]
pub(crate) fn find_lines(text: &str) -> Result<Lines, AllocError>
{
    let mut starts = Vec::new();
    let mut start = 0;
    let mut rest = text;
    loop {
        let FirstLine { count, split } = first_line(rest);
        match split {
            Some((_, after)) => {
                start = start + count as u32 + 1;
                starts.push_fallibly(start)?;
                rest = after;
            }
            None => {
                return Ok(Lines {
                    starts,
                    count: start + count as u32,
                });
            }
        }
    }
}
