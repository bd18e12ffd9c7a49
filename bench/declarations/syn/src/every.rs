//! All items of a file, with those of modules, traits, impls and blocks of foreign items, by both sides.
use proc_macro2::Ident as TheirIdent;
use proved_tokens::declarations::{parse_file, AnyItem, Fault, ItemKind};
use proved_tokens::pm_span::SourceMap;
use proved_tokens::pm_stream::TokenTree;
use syn::spanned::Spanned;
use syn::{File, ForeignItem, ImplItem, Item, TraitItem};

/// A line and a column.
type Start = (usize, usize);

/// An item: how deep it stands, what it declares if that is known, its name, and its first and last place.
#[derive(Debug, PartialEq, Eq)]
pub struct Entry {
    pub depth: usize,
    pub kind: Option<ItemKind>,
    pub name: Option<String>,
    pub extent: (Start, Start),
}

/// The items in reading order, each before those in it.
///
/// # Errors
///
/// The first fault of a file or of what stands in an item's braces.
pub fn ours(trees: &[TokenTree], map: &SourceMap) -> Result<Vec<Entry>, Fault> {
    let mut found = Vec::new();
    add_ours(trees, map, 0, &mut found)?;
    Ok(found)
}

fn add_ours(trees: &[TokenTree], map: &SourceMap, depth: usize, found: &mut Vec<Entry>) -> Result<(), Fault> {
    for item in parse_file(trees)?.items {
        let item = item?;
        found.push(entry(&item, map, depth));
        if let Some(body) = item.body() {
            add_ours(body.stream_ref().trees(), map, depth + 1, found)?;
        }
    }
    Ok(())
}

/// Leaves out those of ours that stand within an item that syn keeps as tokens alone, of which it has none.
pub fn drop_kept(ours: &mut Vec<Entry>, theirs: &[Entry]) {
    let kept: Vec<_> = theirs.iter().filter(|entry| entry.kind.is_none()).collect();
    let is_in = |inner: &Entry, outer: &Entry| {
        inner.depth > outer.depth && inner.extent.0 >= outer.extent.0 && inner.extent.1 <= outer.extent.1
    };
    ours.retain(|entry| !kept.iter().any(|outer| is_in(entry, outer)));
}

/// How many items there are, with none of their places.
///
/// # Errors
///
/// As of [`ours`].
pub fn count(trees: &[TokenTree]) -> Result<usize, Fault> {
    let mut count = 0;
    for item in parse_file(trees)?.items {
        count += 1;
        if let Some(body) = item?.body() {
            count += self::count(body.stream_ref().trees())?;
        }
    }
    Ok(count)
}

fn entry(item: &AnyItem, map: &SourceMap, depth: usize) -> Entry {
    let (first, last) = (&item.trees[0], &item.trees[item.trees.len() - 1]);
    let [start, end] = [first.span().start(map), last.span().end(map)].map(|place| (place.line, place.column));
    Entry { depth, kind: Some(item.kind), name: item.name.map(ToString::to_string), extent: (start, end) }
}

/// The same by syn. What it keeps as tokens alone has no kind.
pub fn theirs(file: &File) -> Vec<Entry> {
    let mut found = Theirs { depth: 0, entries: Vec::new() };
    found.items(&file.items);
    found.entries
}

struct Theirs {
    depth: usize,
    entries: Vec<Entry>,
}

impl Theirs {
    fn push(&mut self, item: &impl Spanned, kind: Option<ItemKind>, name: Option<&TheirIdent>) {
        let span = item.span();
        let [start, end] = [span.start(), span.end()].map(|place| (place.line, place.column));
        let (depth, name) = (self.depth, name.map(ToString::to_string));
        self.entries.push(Entry { depth, kind, name, extent: (start, end) });
    }

    fn within(&mut self, add: impl FnOnce(&mut Self)) {
        self.depth += 1;
        add(self);
        self.depth -= 1;
    }

    fn items(&mut self, items: &[Item]) {
        items.iter().for_each(|item| self.item(item));
    }

    fn item(&mut self, item: &Item) {
        let (kind, name) = match item {
            Item::Const(item) => (ItemKind::Constant, Some(&item.ident)),
            Item::Enum(item) => (ItemKind::Enum, Some(&item.ident)),
            Item::ExternCrate(item) => (ItemKind::ExternCrate, Some(&item.ident)),
            Item::Fn(item) => (ItemKind::Function, Some(&item.sig.ident)),
            Item::ForeignMod(_) => (ItemKind::ExternBlock, None),
            Item::Impl(_) => (ItemKind::Impl, None),
            Item::Macro(item) => (ItemKind::MacroCall, item.ident.as_ref()),
            Item::Mod(item) => (ItemKind::Module, Some(&item.ident)),
            Item::Static(item) => (ItemKind::Static, Some(&item.ident)),
            Item::Struct(item) => (ItemKind::Struct, Some(&item.ident)),
            Item::Trait(item) => (ItemKind::Trait, Some(&item.ident)),
            Item::TraitAlias(item) => (ItemKind::TraitAlias, Some(&item.ident)),
            Item::Type(item) => (ItemKind::TypeAlias, Some(&item.ident)),
            Item::Union(item) => (ItemKind::Union, Some(&item.ident)),
            Item::Use(_) => (ItemKind::Use, None),
            _ => return self.push(item, None, None),
        };
        self.push(item, Some(kind), name);
        self.within(|found| match item {
            Item::Mod(item) => item.content.iter().for_each(|(_, items)| found.items(items)),
            Item::Trait(item) => item.items.iter().for_each(|item| found.of_trait(item)),
            Item::Impl(item) => item.items.iter().for_each(|item| found.of_impl(item)),
            Item::ForeignMod(item) => item.items.iter().for_each(|item| found.foreign(item)),
            _ => {}
        });
    }

    fn of_trait(&mut self, item: &TraitItem) {
        let (kind, name) = match item {
            TraitItem::Const(item) => (ItemKind::Constant, Some(&item.ident)),
            TraitItem::Fn(item) => (ItemKind::Function, Some(&item.sig.ident)),
            TraitItem::Macro(_) => (ItemKind::MacroCall, None),
            TraitItem::Type(item) => (ItemKind::TypeAlias, Some(&item.ident)),
            _ => return self.push(item, None, None),
        };
        self.push(item, Some(kind), name);
    }

    fn of_impl(&mut self, item: &ImplItem) {
        let (kind, name) = match item {
            ImplItem::Const(item) => (ItemKind::Constant, Some(&item.ident)),
            ImplItem::Fn(item) => (ItemKind::Function, Some(&item.sig.ident)),
            ImplItem::Macro(_) => (ItemKind::MacroCall, None),
            ImplItem::Type(item) => (ItemKind::TypeAlias, Some(&item.ident)),
            _ => return self.push(item, None, None),
        };
        self.push(item, Some(kind), name);
    }

    fn foreign(&mut self, item: &ForeignItem) {
        let (kind, name) = match item {
            ForeignItem::Fn(item) => (ItemKind::Function, Some(&item.sig.ident)),
            ForeignItem::Macro(_) => (ItemKind::MacroCall, None),
            ForeignItem::Static(item) => (ItemKind::Static, Some(&item.ident)),
            ForeignItem::Type(item) => (ItemKind::TypeAlias, Some(&item.ident)),
            _ => return self.push(item, None, None),
        };
        self.push(item, Some(kind), name);
    }
}
