//! The parts of an item by the crate `declarations`.
use proved_tokens::declarations::{
    parse_field, parse_tuple_field, parse_type_item, parse_variant, Body, Fault, Field, Fields,
};
use proved_tokens::pm_stream::{Group, TokenTree};
use proved_tokens::pm_token::{Delimiter, Ident};

/// What a part is in the source.
#[derive(Clone, Copy)]
pub enum Piece<'a> {
    Trees(&'a [TokenTree]),
    Name(&'a Ident),
    /// The delimiters of fields, which come after it as parts of their own, or those of a body.
    Delimiters(Option<Delimiter>),
    /// The `...` of a variadic parameter.
    Dots,
}

/// Why an item isn't read.
#[derive(Debug)]
#[allow(dead_code, reason = "its fields are printed by Debug")]
pub enum Refusal {
    Fault(Fault),
    /// No comma stands after an element, before so many trees.
    NoComma(usize),
}

impl From<Fault> for Refusal {
    fn from(fault: Fault) -> Refusal {
        Refusal::Fault(fault)
    }
}

/// Calls `part` with the name of each part and what it is, in the order of
/// [`TypeItem`](proved_tokens::declarations::TypeItem).
///
/// # Errors
///
/// Where the trees are no item, after the parts before that.
pub fn each_part<'a>(trees: &'a [TokenTree], part: impl FnMut(&'static str, Piece<'a>)) -> Result<(), Refusal> {
    let item = parse_type_item(trees)?;
    let mut parts = Parts { part };
    parts.attributes(item.attributes);
    parts.trees("visibility", item.visibility);
    parts.name("keyword", item.keyword);
    parts.name("name", item.name);
    parts.trees("generics", item.generics);
    parts.trees("where clause", item.where_clause);
    match item.body {
        Body::Struct(fields) => {
            parts.fields(fields)?;
            parts.trees("semicolon", item.semicolon);
        }
        Body::Enum(variants) => parts.list(variants, Parts::variant)?,
        Body::Union(fields) => parts.fields(Fields::Named(fields))?,
    }
    Ok(())
}

/// Takes the parts of a declaration, one after the other.
pub struct Parts<F> {
    pub part: F,
}

impl<'a, F: FnMut(&'static str, Piece<'a>)> Parts<F> {
    pub fn trees(&mut self, name: &'static str, trees: &'a [TokenTree]) {
        (self.part)(name, Piece::Trees(trees));
    }

    pub fn name(&mut self, name: &'static str, ident: &'a Ident) {
        (self.part)(name, Piece::Name(ident));
    }

    pub fn attributes(&mut self, trees: &'a [TokenTree]) {
        trees.chunks(2).for_each(|attribute| self.trees("attribute", attribute));
    }

    /// The elements within the group, of which `element` reads one and answers the trees after it.
    fn list(
        &mut self,
        group: &'a Group,
        element: impl Fn(&mut Self, &'a [TokenTree]) -> Result<&'a [TokenTree], Refusal>,
    ) -> Result<(), Refusal> {
        let mut left = group.stream_ref().trees();
        while !left.is_empty() {
            let rest = element(self, left)?;
            left = match rest.split_first() {
                Some((TokenTree::Punct(comma), rest)) if comma.as_char() == ',' => rest,
                Some(_) => return Err(Refusal::NoComma(rest.len())),
                None => rest,
            };
        }
        Ok(())
    }

    fn fields(&mut self, fields: Fields<'a>) -> Result<(), Refusal> {
        let delimiter = match fields {
            Fields::Named(_) => Some(Delimiter::Brace),
            Fields::Tuple(_) => Some(Delimiter::Parenthesis),
            Fields::Unit => None,
        };
        (self.part)("delimiters of fields", Piece::Delimiters(delimiter));
        match fields {
            Fields::Named(group) => self.list(group, Parts::field),
            Fields::Tuple(group) => self.list(group, Parts::tuple_field),
            Fields::Unit => Ok(()),
        }
    }

    fn field(&mut self, trees: &'a [TokenTree]) -> Result<&'a [TokenTree], Refusal> {
        let (field, rest) = parse_field(trees)?;
        self.parts_of_field(field);
        Ok(rest)
    }

    fn tuple_field(&mut self, trees: &'a [TokenTree]) -> Result<&'a [TokenTree], Refusal> {
        let (field, rest) = parse_tuple_field(trees)?;
        self.parts_of_field(field);
        Ok(rest)
    }

    fn parts_of_field(&mut self, field: Field<'a>) {
        self.attributes(field.attributes);
        self.trees("visibility", field.visibility);
        if let Some(name) = field.name {
            self.name("field's name", name);
        }
        self.trees("type", field.field_type);
    }

    fn variant(&mut self, trees: &'a [TokenTree]) -> Result<&'a [TokenTree], Refusal> {
        let (variant, rest) = parse_variant(trees)?;
        self.attributes(variant.attributes);
        self.trees("visibility of a variant", variant.visibility);
        self.name("variant's name", variant.name);
        self.fields(variant.fields)?;
        self.trees("discriminant", variant.discriminant);
        Ok(rest)
    }
}
