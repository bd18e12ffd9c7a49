//! A derive macro with `proved-macros` that gives a struct a builder.
use proved_macros::expand;
use proved_macros::proved_tokens::error::CompileError;
use proved_macros::proved_tokens::items::{
    impl_generics, parse_type_item, parse_type_path, type_generics, where_clause, AttributeArgs, Attributes, Body,
    Entries, EntryKind, Field, FieldList, Fields, PathArguments, TypePath,
};
use proved_macros::proved_tokens::{format_ident, quote, TokenStream, TokenTree};

/// Gives a struct the function `builder`, which returns a builder with `build` and a setter for each field.
///
/// A field with `#[builder(default)]` or `#[builder(default = EXPRESSION)]` need not be set. An `Option` that is not
/// set is `None`. Any other field must be set. With `#[builder(name = IDENTIFIER)]` the setter has another name.
#[proc_macro_derive(Builder, attributes(builder))]
pub fn derive_builder(item: proc_macro::TokenStream) -> proc_macro::TokenStream {
    expand(item, |item, _| builder(item))
}

/// Returns the code for an item.
fn builder(item: &TokenStream) -> Result<TokenStream, CompileError> {
    let item = parse_type_item(item.trees())?;
    let Body::Struct(Fields::Named(body)) = item.body else {
        return Err(CompileError::new(item.keyword.span(), "builders are for structs with named fields"));
    };
    let (mut names, mut setters, mut kinds, mut values) = (Vec::new(), Vec::new(), Vec::new(), Vec::new());
    for field in FieldList::named(body) {
        let field = field?;
        let Some(name) = field.name else { continue };
        let options = options(&field)?;
        let missing = format!("the field `{name}` is not set");
        let inner = inside_option(field.field_type);
        values.push(match (&options.default, inner) {
            (Some(default), Some(_)) => quote! { self.#name.or(#default) },
            (Some(default), None) => quote! { self.#name.unwrap_or_else(|| #default) },
            (None, Some(_)) => quote! { self.#name },
            (None, None) => quote! { self.#name.ok_or(#missing)? },
        });
        names.push(name);
        setters.push(options.name.unwrap_or_else(|| quote! { #name }));
        kinds.push(inner.unwrap_or(field.field_type));
    }
    let (parameters, arguments, clause) = (impl_generics(&item)?, type_generics(&item)?, where_clause(&item)?);
    let (name, visibility, made) =
        (item.name, TokenStream::from(item.visibility), format_ident!("{}Builder", item.name));
    Ok(quote! {
        #visibility struct #made #parameters #clause { #( #names: ::core::option::Option<#kinds>, )* }
        impl #parameters #name #arguments #clause {
            #visibility fn builder() -> #made #arguments {
                #made { #( #names: ::core::option::Option::None, )* }
            }
        }
        impl #parameters #made #arguments #clause {
            #( #visibility fn #setters(mut self, value: #kinds) -> Self {
                self.#names = ::core::option::Option::Some(value);
                self
            } )*
            #visibility fn build(self) -> ::core::result::Result<#name #arguments, &'static str> {
                ::core::result::Result::Ok(#name { #( #names: #values, )* })
            }
        }
    })
}

/// The options in the attributes of a field.
#[derive(Default)]
struct Options {
    default: Option<TokenStream>,
    name: Option<TokenStream>,
}

const WANTED: &str = "`default` or `name = ..` is wanted";

/// Returns the options of a field, or the error of the first entry that is not one.
fn options(field: &Field) -> Result<Options, CompileError> {
    let mut options = Options::default();
    for attribute in Attributes::new(field.attributes).filter(|attribute| attribute.is("builder")) {
        let AttributeArgs::Group(list) = attribute.args() else {
            return Err(CompileError::new_spanned(attribute.path(), "a list is wanted, as in `#[builder(default)]`"));
        };
        for entry in Entries::new(list) {
            let entry = entry?;
            match entry.kind {
                EntryKind::Path if entry.is("default") => {
                    options.default = Some(quote! { ::core::default::Default::default() });
                }
                EntryKind::Value(value) if entry.is("default") => options.default = Some(value.into()),
                EntryKind::Value(value @ [TokenTree::Ident(_)]) if entry.is("name") => {
                    options.name = Some(value.into())
                }
                EntryKind::Literal(trees) => return Err(CompileError::new_spanned(trees, WANTED)),
                _ => return Err(CompileError::new_spanned(entry.path, WANTED)),
            }
        }
    }
    Ok(options)
}

/// Returns the type inside `Option<..>`, if the type is written so, also after a path such as `std::option::`.
fn inside_option(kind: &[TokenTree]) -> Option<&[TokenTree]> {
    match parse_type_path(kind).ok()? {
        TypePath { name, arguments: PathArguments::AngleBracketed(inside), .. } if *name == "Option" => Some(inside),
        _ => None,
    }
}
