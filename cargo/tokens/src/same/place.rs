// Made from crates/same/src/place.rt by dev/erase: change that file, not this one.
//! Lines and columns in a text.

use proved_tokens::proc_macro2::LineColumn;

/// Returns the line and column after the first `bytes` bytes of the text. Lines count from 1, and columns count
/// characters from 0.
pub fn place_at(text: &str, bytes: usize) -> LineColumn
{
    let mut line = 1;
    let mut column = 0;
    let mut left = bytes;
    let mut rest = text.chars();
    while left > 0 {
        let Some(c) = rest.next() else {
            break;
        };
        left = left.saturating_sub(c.len_utf8());
        if c == '\n' {
            line += 1;
            column = 0;
        } else {
            column += 1;
        }
    }
    LineColumn { line, column }
}
