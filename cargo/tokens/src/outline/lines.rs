// Made from crates/outline/src/lines.rt by dev/erase: change that file, not this one.
//! The line of a declaration.

use proved_tokens::shim::prelude::GrowText;

use crate::outline::names::word_of;
use crate::outline::options::Form;
use proved_tokens::declarations::ItemKind;
use crate::messages::json_escape;
use proved_tokens::proc_macro2::LineColumn;
use proved_tokens::shim::alloc::AllocError;

/// A declaration as it is shown.
#[derive(Clone, Copy)]
pub struct Shown<'a> {
    /// The number of declarations that it is in.
    pub depth: usize,
    /// The kind of the item.
    pub kind: ItemKind,
    /// Whether the item has a name.
    pub named: bool,
    /// The name of the item, or its header if it has no name.
    pub name: &'a str,
    /// The line and the column where it begins.
    pub start: LineColumn,
}

/// Returns the line of a declaration, without a line end. A `tags` file has lines only for items with names.
pub fn line_of(
    form: Form,
    path: &str,
    shown: Shown<'_>,
) -> Result<Option<String>, AllocError>
{
    match form {
        Form::Lines => Ok(Some(plain(path, shown)?)),
        Form::Json => Ok(Some(json(path, shown)?)),
        Form::Ctags if shown.named => Ok(Some(tag(path, shown)?)),
        Form::Ctags => Ok(None),
    }
}

/// The line `FILE:L:C: fn name`. Line and column count from 1.
fn plain(path: &str, shown: Shown<'_>) -> Result<String, AllocError>
{
    let mut out = String::new();
    let line = shown.start.line;
    // The type is wide enough that the sum cannot overflow.
    let column = shown.start.column as u128 + 1;
    write!(out, "{path}:{line}:{column}: ")?;
    push_indent(&mut out, shown.depth)?;
    push_title(&mut out, shown)?;
    Ok(out)
}

/// The declaration as a JSON object.
fn json(path: &str, shown: Shown<'_>) -> Result<String, AllocError>
{
    let mut out = String::new();
    let line = shown.start.line;
    // The type is wide enough that the sum cannot overflow.
    let column = shown.start.column as u128 + 1;
    let file = json_escape(path)?;
    let word = word_of(shown.kind);
    let name = json_escape(shown.name)?;
    let depth = shown.depth;
    write!(
        out,
        "{{\"file\":\"{file}\",\"line\":{line},\"column\":{column},\"kind\":\"{word}\",\"name\":\"{name}\",\
         \"depth\":{depth}}}"
    )?;
    Ok(out)
}

/// The line of a declaration in a `tags` file.
fn tag(path: &str, shown: Shown<'_>) -> Result<String, AllocError>
{
    let mut out = String::new();
    let name = shown.name;
    let line = shown.start.line;
    let word = word_of(shown.kind);
    write!(out, "{name}\t{path}\t{line};\"\t{word}")?;
    Ok(out)
}

/// Appends two spaces for each level, for at most 32 levels.
fn push_indent(out: &mut String, depth: usize) -> Result<(), AllocError>
{
    for _ in 0..depth.min(32) {
        out.push_str_fallibly("  ")?;
    }
    Ok(())
}

/// Appends the word for the kind and the name, or the header if there is no name.
fn push_title(out: &mut String, shown: Shown<'_>) -> Result<(), AllocError>
{
    let name = shown.name;
    if !shown.named {
        return out.push_str_fallibly(name);
    }
    let word = word_of(shown.kind);
    write!(out, "{word} {name}")
}
