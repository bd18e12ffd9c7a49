// Made from crates/outline/src/names.rt by dev/erase: change that file, not this one.
//! The words and names by which declarations are shown.

use proved_tokens::shim::prelude::Grow;

use proved_tokens::declarations::ItemKind;
use proved_tokens::shim::alloc::AllocError;

/// Returns the word for a kind of item.
pub fn word_of(kind: ItemKind) -> &'static str
{
    match kind {
        ItemKind::Constant => "const",
        ItemKind::Enum => "enum",
        ItemKind::ExternBlock => "extern",
        ItemKind::ExternCrate => "crate",
        ItemKind::Function => "fn",
        ItemKind::Group => "item",
        ItemKind::Impl => "impl",
        ItemKind::Macro | ItemKind::MacroCall => "macro",
        ItemKind::Module => "mod",
        ItemKind::Static => "static",
        ItemKind::Struct => "struct",
        ItemKind::Trait | ItemKind::TraitAlias => "trait",
        ItemKind::TypeAlias => "type",
        ItemKind::Union => "union",
        ItemKind::Use => "use",
    }
}

/// Returns the text on one line, with one space for each run of spaces and control characters.
pub fn one_line(text: &str) -> Result<String, AllocError>
{
    let mut out = String::new();
    let mut gap = false;
    for c in text.chars() {
        push_in_line(&mut out, gap, c)?;
        gap = c <= ' ';
    }
    Ok(out)
}

/// Appends a character, and a space before it if it is after a gap. Appends nothing if it is itself part of a gap.
fn push_in_line(out: &mut String, gap: bool, c: char) -> Result<(), AllocError>
{
    if c <= ' ' {
        return Ok(());
    }
    if gap {
        out.push_fallibly(' ')?;
    }
    out.push_fallibly(c)
}
