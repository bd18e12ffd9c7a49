//! The entries of attributes, by both sides.
use crate::ours::{Piece, Refusal};
use crate::parts::Part;
use proved_tokens::declarations::{split_attribute, Entries, Entry, EntryKind};
use proved_tokens::pm_stream::TokenTree;
use quote::ToTokens;
use syn::parse::{Parse, ParseStream, Parser};
use syn::punctuated::Punctuated;
use syn::spanned::Spanned;
use syn::visit::{self, Visit};
use syn::{Attribute, File, Lit, Meta, Token};

/// The source texts of all attributes of the file, outside of macros, but for doc comments.
pub fn texts(file: &File) -> Vec<String> {
    let mut found = Attributes { texts: Vec::new() };
    found.visit_file(file);
    found.texts
}

struct Attributes {
    texts: Vec<String>,
}

impl<'a> Visit<'a> for Attributes {
    fn visit_attribute(&mut self, attribute: &'a Attribute) {
        let text = attribute.span().source_text().expect("the attribute stands in the file");
        if text.starts_with('#') {
            self.texts.push(text);
        }
        visit::visit_attribute(self, attribute);
    }
}

/// An entry of a list as syn's users read it: a literal, or what syn calls a meta.
enum Nested {
    Literal(Option<Token![-]>, Lit),
    Meta(Meta),
}

impl Parse for Nested {
    fn parse(input: ParseStream) -> syn::Result<Nested> {
        let is_literal = input.peek(Lit) || input.peek(Token![-]);
        // `true` and `false` begin a path where `(`, `=` or `::` follows, which no real list has.
        if is_literal {
            return Ok(Nested::Literal(input.parse()?, input.parse()?));
        }
        input.parse().map(Nested::Meta)
    }
}

/// The parts of an attribute's entry, and of the entries in its lists at all depths, by syn. A list that syn doesn't
/// read as such is kept as a whole, and `read` says for each list whether it is read.
pub fn theirs(attribute: &Attribute) -> (Vec<Part>, Vec<bool>) {
    let mut found = Theirs { parts: Vec::new(), read: Vec::new() };
    found.meta(&attribute.meta);
    (found.parts, found.read)
}

struct Theirs {
    parts: Vec<Part>,
    read: Vec<bool>,
}

impl Theirs {
    fn push(&mut self, name: &'static str, tokens: &impl ToTokens) {
        self.parts.push(Part::of_stream(name, tokens.to_token_stream()));
    }

    fn meta(&mut self, meta: &Meta) {
        self.push("path", meta.path());
        match meta {
            Meta::Path(_) => {}
            Meta::List(list) => match Punctuated::<Nested, Token![,]>::parse_terminated.parse2(list.tokens.clone()) {
                Ok(entries) => {
                    self.read.push(true);
                    self.parts.push(Part { name: "entries", tokens: entries.len().to_string() });
                    entries.iter().for_each(|entry| self.entry(entry));
                }
                Err(_) => {
                    self.read.push(false);
                    self.push("tokens", &list.tokens);
                }
            },
            Meta::NameValue(pair) => self.push("value", &pair.value),
        }
    }

    fn entry(&mut self, entry: &Nested) {
        match entry {
            Nested::Literal(minus, literal) => {
                let mut tokens = minus.to_token_stream();
                literal.to_tokens(&mut tokens);
                self.push("literal", &tokens);
            }
            Nested::Meta(meta) => self.meta(meta),
        }
    }
}

/// The same parts by ours. `read` says for each list whether to read it.
///
/// # Errors
///
/// Where the trees are no attribute, or a list that shall be read is none, after the parts before that.
pub fn ours(trees: &[TokenTree], read: &[bool]) -> Result<Vec<Part>, Refusal> {
    let Some((attribute, [])) = split_attribute(trees) else { return Err(Refusal::NoComma(trees.len())) };
    let mut found = Ours { parts: Vec::new(), read: read.iter() };
    found.entry(&attribute.entry()?)?;
    Ok(found.parts)
}

struct Ours<'a> {
    parts: Vec<Part>,
    read: std::slice::Iter<'a, bool>,
}

impl Ours<'_> {
    fn push(&mut self, name: &'static str, trees: &[TokenTree]) {
        self.parts.push(Part::of_piece(name, Piece::Trees(trees)));
    }

    fn entry(&mut self, entry: &Entry) -> Result<(), Refusal> {
        if let EntryKind::Literal(literal) = entry.kind {
            self.push("literal", literal);
            return Ok(());
        }
        self.push("path", entry.path);
        match entry.kind {
            EntryKind::Path | EntryKind::Literal(_) => {}
            EntryKind::Value(value) => self.push("value", value),
            EntryKind::List(group) => {
                if self.read.next() == Some(&false) {
                    self.push("tokens", group.stream_ref().trees());
                    return Ok(());
                }
                let entries = Entries::new(group).collect::<Result<Vec<_>, _>>()?;
                self.parts.push(Part { name: "entries", tokens: entries.len().to_string() });
                entries.iter().try_for_each(|entry| self.entry(entry))?;
            }
        }
        Ok(())
    }
}
