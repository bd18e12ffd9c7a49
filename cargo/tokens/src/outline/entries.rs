// Made from crates/outline/src/entries.rt by dev/erase: change that file, not this one.
//! The declarations in trees.

use proved_tokens::shim::prelude::Grow;

use proved_tokens::declarations::{AnyItem, Fault, ItemKind, Items, split_attributes, split_inner_attributes};
use proved_tokens::pm_span::Span;
use proved_tokens::pm_stream::TokenTree;
use proved_tokens::pm_token::Ident;
use proved_tokens::shim::alloc::AllocError;

/// A declaration that may be listed.
#[derive(Clone, Copy)]
pub struct Entry<'a> {
    /// The number of declarations that it is in.
    pub depth: usize,
    /// The kind of the item.
    pub kind: ItemKind,
    /// The name, or `None` if it has none, such as an `impl` or an `extern` block.
    pub name: Option<&'a Ident>,
    /// The trees of the item after its attributes.
    pub header: &'a [TokenTree],
}

/// An error: where trees are no items.
#[derive(Clone, Copy)]
pub struct Stop {
    /// The error in the trees.
    pub fault: Fault,
    /// The span of the last tree, after which more trees may be missing.
    pub last: Option<Span>,
}

/// Returns the declarations of a file in reading order, each before those in it.
///
/// If the trees are no items, it returns a `Stop`. For `mod m { fn f() {} } struct S;` it returns `m`, `f` with the
/// depth 1, and `S`.
pub fn entries<'a>(
    trees: &'a [TokenTree],
) -> Result<Result<Vec<Entry<'a>>, Stop>, AllocError>
{
    let mut entries = Vec::new();
    let items = match items_of(trees) {
        Ok(items) => items,
        Err(stop) => return Ok(Err(stop)),
    };
    // The items that are left of the file and of each open declaration. The innermost comes last.
    let mut levels = Vec::new();
    levels.push_fallibly(items)?;
    // Each step takes an item or leaves a declaration. The bound is never reached: memory cannot hold so many trees.
    'walk: for _ in 0..u64::MAX {
        let Some(mut here) = levels.pop() else {
            return Ok(Ok(entries));
        };
        if here.left.is_empty() {
            continue 'walk;
        }
        let left = here.left;
        let Some(found) = here.next() else {
            continue 'walk;
        };
        let item = match found {
            Ok(item) => item,
            Err(fault) => return Ok(Err(Stop::at(fault, left))),
        };
        let (entry, inside) = match open_item(levels.len(), &item) {
            Ok(both) => both,
            Err(stop) => return Ok(Err(stop)),
        };
        push_listed(&mut entries, entry)?;
        levels.push_fallibly(here)?;
        levels.push_fallibly(inside)?;
    }
    Err(AllocError::met())
}

/// Appends the entry if it is listed.
fn push_listed<'a>(entries: &mut Vec<Entry<'a>>, entry: Entry<'a>) -> Result<(), AllocError>
{
    if is_listed(&entry) {
        entries.push_fallibly(entry)?;
    }
    Ok(())
}

/// Returns whether the item is listed: it has a name, or its header is shown instead of one.
pub fn is_listed(entry: &Entry<'_>) -> bool
{
    match entry.kind {
        ItemKind::Impl | ItemKind::ExternBlock => true,
        _ => entry.name.is_some(),
    }
}

/// The items after the inner attributes.
fn items_of(trees: &[TokenTree]) -> Result<Items<'_>, Stop>
{
    match split_inner_attributes(trees) {
        Ok((_, left)) => Ok(Items { left }),
        Err(fault) => Err(Stop::at(fault, trees)),
    }
}

/// The entry of an item, and the items in its braces. `depth` is the number of declarations that it is in.
fn open_item<'a>(depth: usize, item: &AnyItem<'a>) -> Result<(Entry<'a>, Items<'a>), Stop>
{
    let entry = match entry_of(depth, item) {
        Ok(entry) => entry,
        Err(stop) => return Err(stop),
    };
    match items_in(item) {
        Ok(inside) => Ok((entry, inside)),
        Err(stop) => Err(stop),
    }
}

/// The items in the braces of an item, or none if it has no such braces.
fn items_in<'a>(item: &AnyItem<'a>) -> Result<Items<'a>, Stop>
{
    match item.body() {
        Some(group) => items_of(group.stream_ref().trees()),
        None => Ok(Items { left: &[] }),
    }
}

/// Returns the entry of an item. `depth` is the number of declarations that it is in.
pub fn entry_of<'a>(depth: usize, item: &AnyItem<'a>) -> Result<Entry<'a>, Stop>
{
    match split_attributes(item.trees) {
        Ok((_, header)) => Ok(Entry {
            depth,
            kind: item.kind,
            name: item.name,
            header,
        }),
        Err(fault) => Err(Stop::at(fault, item.trees)),
    }
}

/// Returns the span of the first tree.
pub fn first_of(trees: &[TokenTree]) -> Span
{
    match trees.split_first() {
        Some((first, _)) => first.span(),
        None => Span::call_site(),
    }
}

/// Returns the span of the last tree but one, or of the only tree.
pub fn last_of(trees: &[TokenTree]) -> Span
{
    match trees.split_last() {
        Some((last, front)) => match front.split_last() {
            Some((before, _)) => before.span(),
            None => last.span(),
        },
        None => Span::call_site(),
    }
}

impl Stop {
    /// Returns the error in these trees.
    pub fn at(fault: Fault, trees: &[TokenTree]) -> Stop {
        let last = match trees.split_last() {
            Some((last, _)) => Some(last.span()),
            None => None,
        };
        Stop { fault, last }
    }
}
