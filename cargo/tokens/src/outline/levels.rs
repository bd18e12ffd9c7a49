// Made from crates/outline/src/levels.rt by dev/erase: change that file, not this one.
//! The lines of a text's declarations. No trees are built for what is not read, such as the bodies of functions.

use proved_tokens::shim::prelude::Grow;

use crate::outline::answer::entry_line;
use crate::outline::entries::{Entry, Stop, entry_of, is_listed};
use crate::outline::level::Level;
use crate::outline::options::Form;
use proved_tokens::declarations::{split_any_item, split_inner_attributes};
use proved_tokens::proc_macro2::SourceMap;
use proved_tokens::shim::alloc::AllocError;
use proved_tokens::token_buffer::Cursor;

/// An item that has been read.
struct ReadItem {
    /// The line of the item, if it is listed.
    line: Option<String>,
    /// The number of its trees.
    count: usize,
    /// Whether its last tree is a group in braces that holds items.
    has_body: bool,
}

/// Returns the lines of the declarations of a file in reading order, or a `Stop` if its trees are no items.
pub fn lines_in(
    form: Form,
    path: &str,
    map: &SourceMap,
    file: Cursor<'_>,
) -> Result<Result<Vec<String>, Stop>, AllocError>
{
    let mut lines = Vec::new();
    let first = match level_of(file)? {
        Ok(level) => level,
        Err(stop) => return Ok(Err(stop)),
    };
    // The file and each open declaration. The innermost comes last.
    let mut levels = Vec::new();
    levels.push_fallibly(first)?;
    // Each step takes an item or leaves a declaration. The bound is never reached: memory cannot hold so many trees.
    'walk: for _ in 0..u64::MAX {
        let Some(level) = levels.pop() else {
            return Ok(Ok(lines));
        };
        if level.rest.eof() {
            continue 'walk;
        }
        let step = match step_of(form, path, map, levels.len(), &level)? {
            Ok(step) => step,
            Err(stop) => return Ok(Err(stop)),
        };
        let ReadItem {
            line,
            count,
            has_body,
        } = step;
        push_line(&mut lines, line)?;
        let last = past(level.rest, count - 1);
        levels.push_fallibly(advance(level, count, last))?;
        if !has_body {
            continue 'walk;
        }
        match inside_of(last)? {
            Ok(inside) => levels.push_fallibly(inside)?,
            Err(stop) => return Ok(Err(stop)),
        }
    }
    Err(AllocError::met())
}

/// Appends the line, if there is one.
fn push_line(lines: &mut Vec<String>, line: Option<String>) -> Result<(), AllocError>
{
    if let Some(line) = line {
        lines.push_fallibly(line)?;
    }
    Ok(())
}

/// The items after the inner attributes.
fn level_of(whole: Cursor<'_>) -> Result<Result<Level<'_>, Stop>, AllocError>
{
    let trees = whole.outer_trees()?;
    let at = match split_inner_attributes(trees.as_slice()) {
        Ok((inner, _)) => inner.len(),
        Err(fault) => return Ok(Err(Stop::at(fault, trees.as_slice()))),
    };
    let rest = past(whole, at);
    Ok(Ok(Level { trees, at, rest }))
}

/// The items in the group that the cursor is at.
fn inside_of(body: Cursor<'_>) -> Result<Result<Level<'_>, Stop>, AllocError>
{
    match body.any_group() {
        Some((_, inside, _)) => level_of(inside),
        None => unreachable!(),
    }
}

/// The cursor after so many trees.
fn past(cursor: Cursor<'_>, count: usize) -> Cursor<'_>
{
    let mut here = cursor;
    for _ in 0..count {
        match here.skip() {
            Some(rest) => here = rest,
            None => return here,
        }
    }
    here
}

/// The level after so many more of its trees. `last` is the cursor at the last of these trees.
fn advance<'a>(level: Level<'a>, count: usize, last: Cursor<'a>) -> Level<'a>
{
    let rest = past(last, 1);
    Level {
        trees: level.trees,
        at: level.at + count,
        rest,
    }
}

/// Reads the next item of a level. `depth` is the number of declarations that the item is in.
fn step_of(
    form: Form,
    path: &str,
    map: &SourceMap,
    depth: usize,
    level: &Level<'_>,
) -> Result<Result<ReadItem, Stop>, AllocError>
{
    let (_, left) = level.trees.as_slice().split_at(level.at);
    let item = match split_any_item(left) {
        Ok((item, _)) => item,
        Err(fault) => return Ok(Err(Stop::at(fault, left))),
    };
    let entry = match entry_of(depth, &item) {
        Ok(entry) => entry,
        Err(stop) => return Ok(Err(stop)),
    };
    let line = listed_line(form, path, map, &entry)?;
    Ok(Ok(ReadItem {
        line,
        count: item.trees.len(),
        has_body: item.body().is_some(),
    }))
}

/// The line of an entry, if it is listed. The map has only the entry's text.
fn listed_line(
    form: Form,
    path: &str,
    map: &SourceMap,
    entry: &Entry<'_>,
) -> Result<Option<String>, AllocError>
{
    if is_listed(entry) {
        entry_line(form, path, map, entry)
    } else {
        Ok(None)
    }
}
