// Made from crates/tokens/src/spans.rt by dev/erase: change that file, not this one.
//! Writes a line for each tree of a text: where the tree begins and ends, and its kind.

use crate::tokens::errors::RunError;
use crate::tokens::sinks::ByteSink;
use crate::tokens::writing::write_all;
use proved_tokens::shim::itoa::write_digits;
use proved_tokens::proc_macro2::{Place, PlacedTree, TreeKind};

/// The largest number of lines in one write.
const LINES: usize = 512;

/// The largest number of bytes in a line: four numbers of at most ten digits, and at most twelve other bytes.
const LONGEST_LINE: usize = 64;

/// Writes a line for each of the trees.
///
/// A line has the line and column where the tree begins and where it ends, and its kind. Lines count from 1, and
/// columns count characters from 0. It allocates no memory, and each write has many lines. Returns `Io` if a write
/// failed or took no bytes. A prefix of the lines is written then.
///
/// Example: for `a (b)` the lines are `1:0-1:1 ident`, `1:2-1:5 group` and `1:3-1:4 ident`.
pub fn write_lines<W: ByteSink>(writer: &mut W, trees: &[PlacedTree]) -> Result<(), RunError>
{
    let mut buffer = [0; LINES * LONGEST_LINE];
    let mut rest = trees;
    while !rest.is_empty() {
        let (next, after) = rest.split_at(rest.len().min(LINES));
        let start = put_lines(&mut buffer, next);
        write_all(writer, &buffer[start..])?;
        rest = after;
    }
    Ok(())
}

/// Puts the lines of the trees at the end of the buffer, the last line first, and returns where they begin.
fn put_lines(buffer: &mut [u8], trees: &[PlacedTree]) -> usize
{
    let mut start = buffer.len();
    let mut rest = trees;
    while let Some((tree, before)) = rest.split_last() {
        start = put_line(buffer, start, *tree);
        rest = before;
    }
    start
}

/// Puts the line of a tree before the byte offset `end`, and returns where it begins.
fn put_line(buffer: &mut [u8], end: usize, tree: PlacedTree) -> usize
{
    let end = put(buffer, end, line_end(tree.kind));
    let end = put_place(buffer, end, tree.end);
    let end = put(buffer, end, "-");
    put_place(buffer, end, tree.start)
}

/// Puts a line and a column, as in `1:0`, before the byte offset `end`, and returns where they begin.
fn put_place(buffer: &mut [u8], end: usize, place: Place) -> usize
{
    let end = put_number(buffer, end, place.column);
    let end = put(buffer, end, ":");
    put_number(buffer, end, place.line)
}

/// Puts a number in decimal digits before the byte offset `end`, and returns where it begins.
fn put_number(buffer: &mut [u8], end: usize, number: u32) -> usize
{
    write_digits(number as u64, buffer, end)
}

/// Puts a text before the byte offset `end`, and returns where it begins.
fn put(buffer: &mut [u8], end: usize, text: &str) -> usize
{
    let start = end - text.len();
    buffer[start..end].copy_from_slice(text.as_bytes());
    start
}

/// Returns a space, the word for the kind, and a line feed.
fn line_end(kind: TreeKind) -> &'static str
{
    match kind {
        TreeKind::Group => " group\n",
        TreeKind::Ident => " ident\n",
        TreeKind::Punct => " punct\n",
        TreeKind::Literal => " literal\n",
    }
}
