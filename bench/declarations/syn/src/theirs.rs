//! The parts of an item by syn.
use crate::parts::Part;
use quote::{quote, ToTokens};
use syn::{Attribute, Data, DeriveInput, Fields, Generics, Variant, Visibility, WhereClause};

/// The parts in the order of [`TypeItem`](proved_tokens::declarations::TypeItem).
pub fn parts(item: &DeriveInput) -> Vec<Part> {
    let mut found = Parts::default();
    found.attributes(&item.attrs);
    found.part("visibility", &item.vis);
    match &item.data {
        Data::Struct(body) => found.part("keyword", &body.struct_token),
        Data::Enum(body) => found.part("keyword", &body.enum_token),
        Data::Union(body) => found.part("keyword", &body.union_token),
    }
    found.part("name", &item.ident);
    found.parameters(&item.generics);
    found.where_clause(&item.generics);
    match &item.data {
        Data::Struct(body) => {
            found.fields(&body.fields);
            found.part("semicolon", &body.semi_token);
        }
        Data::Enum(body) => body.variants.iter().for_each(|variant| found.variant(variant)),
        Data::Union(body) => found.fields(&Fields::Named(body.fields.clone())),
    }
    found.found
}

/// The parts that are found, one after the other.
#[derive(Default)]
pub struct Parts {
    pub found: Vec<Part>,
}

impl Parts {
    pub fn part(&mut self, name: &'static str, tokens: &impl ToTokens) {
        self.found.push(Part::of_stream(name, tokens.to_token_stream()));
    }

    pub fn attributes(&mut self, attributes: &[Attribute]) {
        attributes.iter().for_each(|attribute| self.part("attribute", attribute));
    }

    /// The generic parameters in the order of the source, which syn prints otherwise.
    pub fn parameters(&mut self, generics: &Generics) {
        let Generics { lt_token, params, gt_token, .. } = generics;
        self.part("generics", &quote!(#lt_token #params #gt_token));
    }

    /// The where clause in the order of the source.
    pub fn where_clause(&mut self, generics: &Generics) {
        let clause = generics
            .where_clause
            .as_ref()
            .map(|WhereClause { where_token, predicates }| quote!(#where_token #predicates));
        self.part("where clause", &clause);
    }

    fn fields(&mut self, fields: &Fields) {
        let delimiters = match fields {
            Fields::Named(_) => quote!({}),
            Fields::Unnamed(_) => quote!(()),
            Fields::Unit => quote!(),
        };
        self.part("delimiters of fields", &delimiters);
        for field in fields {
            self.attributes(&field.attrs);
            self.part("visibility", &field.vis);
            if let Some(name) = &field.ident {
                self.part("field's name", name);
            }
            self.part("type", &field.ty);
        }
    }

    /// syn drops a variant's visibility.
    fn variant(&mut self, variant: &Variant) {
        self.attributes(&variant.attrs);
        self.part("visibility of a variant", &Visibility::Inherited);
        self.part("variant's name", &variant.ident);
        self.fields(&variant.fields);
        self.part("discriminant", &variant.discriminant.as_ref().map(|(_, expression)| expression));
    }
}
