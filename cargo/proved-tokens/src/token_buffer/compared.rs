// Made from crates/token_buffer/src/compared.rt by dev/erase: change that file, not this one.
//! Equality of cursors.

use crate::token_buffer::cursor::{Cursor, LiteralText};
use crate::token_buffer::part::{Part, part_of};
use crate::token_buffer::string::{is_same, is_string_of};

/// Two cursors are equal if their remaining trees are the `same` up to spans. They may be in different texts.
impl<'a> PartialEq for Cursor<'a> {
    /// Returns whether the remaining trees of both are the same. This allocates nothing, and takes time in
    /// proportion to the entries and texts of the shorter rest.
    ///
    /// The rests `/// a` and `# [doc = " a"]` are equal. `+ =` and `+=` are not.
    fn eq(&self, other: &Cursor<'a>) -> bool
    {
        let text = self.text;
        let other_text = other.text;
        let mut entries = self.entries;
        let mut others = other.entries;
        while let Some((entry, after)) = entries.split_first() {
            let Some((other_entry, other_after)) = others.split_first() else {
                return false;
            };
            if !are_same(part_of(text, *entry), part_of(other_text, *other_entry)) {
                return false;
            }
            entries = after;
            others = other_after;
        }
        others.is_empty()
    }
}

impl<'a> Eq for Cursor<'a> {
}

/// Returns whether both parts are the same.
fn are_same(part: Part<'_>, other: Part<'_>) -> bool
{
    match (part, other) {
        (Part::Ident(name), Part::Ident(other)) => {
            name.raw == other.raw && is_same(name.text, other.text)
        }
        (Part::Punct(mark, joint), Part::Punct(other, other_joint)) => {
            mark == other && joint == other_joint
        }
        (Part::Literal(literal), Part::Literal(other)) => are_same_literals(literal, other),
        (Part::Open(delimiter), Part::Open(other)) => delimiter == other,
        (Part::Close(delimiter), Part::Close(other)) => delimiter == other,
        _ => false,
    }
}

/// Returns whether both literals have the same text.
fn are_same_literals(literal: LiteralText<'_>, other: LiteralText<'_>) -> bool
{
    match (literal, other) {
        (LiteralText::Source(text), LiteralText::Source(other)) => is_same(text, other),
        (LiteralText::Doc(text), LiteralText::Doc(other)) => is_same(text, other),
        (LiteralText::Source(text), LiteralText::Doc(doc_body)) => is_string_of(text, doc_body),
        (LiteralText::Doc(doc_body), LiteralText::Source(text)) => is_string_of(text, doc_body),
    }
}
