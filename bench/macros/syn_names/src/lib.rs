//! The derive of cargo/examples/names over syn and quote, with the same answers.
use proc_macro2::TokenStream;
use quote::{quote, ToTokens};
use syn::{parse_macro_input, Data, DeriveInput, Error, Expr, Fields, Lit, Meta, Result, Variant};

/// Gives an enum the function `name`.
#[proc_macro_derive(Names, attributes(name))]
pub fn derive_names(item: proc_macro::TokenStream) -> proc_macro::TokenStream {
    let item = parse_macro_input!(item as DeriveInput);
    names(&item).unwrap_or_else(Error::into_compile_error).into()
}

/// The code for an item.
fn names(item: &DeriveInput) -> Result<TokenStream> {
    let Data::Enum(body) = &item.data else {
        return Err(Error::new_spanned(&item.ident, "names are for enums"));
    };
    let (mut variants, mut texts) = (Vec::new(), Vec::new());
    for variant in &body.variants {
        if !matches!(variant.fields, Fields::Unit) {
            return Err(Error::new_spanned(&variant.fields, "a variant has a name alone"));
        }
        texts.push(text(variant)?);
        variants.push(&variant.ident);
    }
    let name = &item.ident;
    let (parameters, arguments, clause) = item.generics.split_for_impl();
    Ok(quote! {
        impl #parameters #name #arguments #clause {
            /// The name of the variant.
            pub fn name(&self) -> &'static str {
                match self { #( Self::#variants => #texts ),* }
            }
        }
    })
}

/// The text of a variant: that of its attribute, or its name.
fn text(variant: &Variant) -> Result<TokenStream> {
    let Some(attribute) = variant.attrs.iter().find(|attribute| attribute.path().is_ident("name")) else {
        return Ok(variant.ident.to_string().to_token_stream());
    };
    let text = if let Meta::NameValue(entry) = &attribute.meta { literal(&entry.value) } else { None };
    let wanted = "a name is a literal, as in `#[name = \"red\"]`";
    text.map(ToTokens::to_token_stream).ok_or_else(|| Error::new_spanned(attribute, wanted))
}

/// The literal that the expression is, perhaps in groups without delimiters.
fn literal(value: &Expr) -> Option<&Lit> {
    match value {
        Expr::Lit(literal) => Some(&literal.lit),
        Expr::Group(group) => literal(&group.expr),
        _ => None,
    }
}
