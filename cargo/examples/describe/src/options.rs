//! The entries of `#[describe(..)]`.

use crate::types::is_path;
use proved_macros::proved_tokens::error::CompileError;
use proved_macros::proved_tokens::items::{bare_trees, AttributeArgs, Attributes, Entries, Entry, EntryKind};
use proved_macros::proved_tokens::{Delimiter, Group, Ident, TokenStream, TokenTree};

/// The entries of all attributes `#[describe(..)]` of a type, a variant or a field.
pub struct Options<'a>(Vec<Entry<'a>>);

impl<'a> Options<'a> {
    /// Reads the entries, and keeps those with a known name.
    pub fn read(attributes: &'a [TokenTree], known: &[&str], errors: &mut Vec<CompileError>) -> Self {
        let mut options = Options(Vec::new());
        for attribute in Attributes::new(attributes).filter(|attribute| attribute.is("describe")) {
            match attribute.args() {
                AttributeArgs::Group(list) if list.delimiter() == Delimiter::Parenthesis => {
                    options.read_list(list, known, errors);
                }
                _ => errors.push(CompileError::new_spanned(attribute.path(), "the entries must be in parentheses")),
            }
        }
        if let (true, Some(with)) = (options.has_skip(), options.entry("with")) {
            errors.push(CompileError::new_spanned(with.path, "a field with `skip` cannot have `with` too"));
        }
        options
    }

    /// Adds the entries of one list. After an error it continues after the next comma.
    fn read_list(&mut self, list: &'a Group, known: &[&str], errors: &mut Vec<CompileError>) {
        let is_comma = |tree: &TokenTree| matches!(tree, TokenTree::Punct(mark) if mark.as_char() == ',');
        let mut entries = Entries::new(list);
        loop {
            let left = entries.left;
            match entries.next() {
                None => return,
                Some(Ok(entry)) => errors.extend(self.add(entry, known).err()),
                Some(Err(fault)) => {
                    let rest = &left[fault.at..];
                    errors.push(fault.within(list).into());
                    entries.left = rest.iter().position(is_comma).map_or(&[], |at| &rest[at + 1..]);
                }
            }
        }
    }

    /// Adds an entry, or says what is wrong with it.
    fn add(&mut self, entry: Entry<'a>, known: &[&str]) -> Result<(), CompileError> {
        let Some(name) = known.iter().find(|name| entry.is(name)) else { return Err(unknown_entry(&entry, known)) };
        if self.entry(name).is_some() {
            return Err(CompileError::new_spanned(entry.path, format!("the entry `{name}` is repeated")));
        }
        self.0.push(entry);
        check_value(name, &entry)
    }

    fn entry(&self, name: &str) -> Option<&Entry<'a>> {
        self.0.iter().find(|entry| entry.is(name))
    }

    pub fn has_skip(&self) -> bool {
        self.entry("skip").is_some()
    }

    /// The path after the `=` of the entry with this name.
    pub fn path(&self, name: &str) -> Option<&'a [TokenTree]> {
        self.entry(name).map(value)
    }

    /// The text of `rename`, or else the name without `r#`.
    pub fn name(&self, name: &Ident) -> String {
        self.entry("rename").and_then(text).unwrap_or_else(|| plain(name))
    }
}

/// The text of an identifier without `r#`.
pub fn plain(name: &Ident) -> String {
    name.to_string().trim_start_matches("r#").to_string()
}

/// The trees after the `=` of an entry, or none.
fn value<'a>(entry: &Entry<'a>) -> &'a [TokenTree] {
    if let EntryKind::Value(trees) = entry.kind { bare_trees(trees) } else { &[] }
}

/// What the string literal after the `=` of an entry stands for.
fn text(entry: &Entry) -> Option<String> {
    if let [TokenTree::Literal(literal)] = value(entry) { literal.str_value().ok() } else { None }
}

fn unknown_entry(entry: &Entry, known: &[&str]) -> CompileError {
    let trees = if let EntryKind::Literal(literal) = entry.kind { literal } else { entry.path };
    let name = TokenStream::from(trees).to_string().replace(' ', "");
    CompileError::new_spanned(trees, format!("unknown entry `{name}`; known are `{}`", known.join("`, `")))
}

/// Checks what follows the known name of an entry. An error is at these trees, or at the name if nothing follows it.
fn check_value(name: &str, entry: &Entry) -> Result<(), CompileError> {
    let (fits, wanted) = match name {
        "skip" => (matches!(entry.kind, EntryKind::Path), "`skip` takes no value"),
        "rename" => (text(entry).is_some(), "`rename` needs a string literal, as in `rename = \"text\"`"),
        "with" => (is_path(value(entry)), "`with` needs the path of a function, as in `with = module::show`"),
        _ => (is_path(value(entry)), "`crate` needs the path of a module, as in `crate = some::module`"),
    };
    match entry.kind {
        _ if fits => Ok(()),
        EntryKind::Value(trees) => Err(CompileError::new_spanned(trees, wanted)),
        EntryKind::List(group) => Err(CompileError::new(group.span(), wanted)),
        EntryKind::Path | EntryKind::Literal(_) => Err(CompileError::new_spanned(entry.path, wanted)),
    }
}
