//! A derive over `proved-macros`, which needs neither syn nor quote: the parts of the item and templates come from the
//! proved functions, over whichever `proc-macro2` the project has.
use proved_macros::expand;
use proved_macros::proved_tokens::error::CompileError;
use proved_macros::proved_tokens::items::{
    bare_trees, impl_generics, parse_type_item, type_generics, where_clause, AttributeArgs, Attributes, Body, Fields,
    Variant, VariantList,
};
use proved_macros::proved_tokens::{quote, Literal, TokenStream, TokenTree};

/// Gives an enum the function `name`, which answers the name of a value's variant, or the text of its attribute
/// `#[name = "text"]`. No variant has fields.
#[proc_macro_derive(Names, attributes(name))]
pub fn derive_names(item: proc_macro::TokenStream) -> proc_macro::TokenStream {
    expand(item, |item, _| names(item))
}

/// The code for an item.
fn names(item: &TokenStream) -> Result<TokenStream, CompileError> {
    let item = parse_type_item(item.trees())?;
    let Body::Enum(body) = item.body else {
        return Err(CompileError::new(item.keyword.span(), "names are for enums"));
    };
    let (mut variants, mut texts) = (Vec::new(), Vec::new());
    for variant in VariantList::new(body) {
        let variant = variant?;
        if let Fields::Named(fields) | Fields::Tuple(fields) = variant.fields {
            return Err(CompileError::new(fields.span(), "a variant has a name alone"));
        }
        texts.push(text(&variant)?);
        variants.push(variant.name);
    }
    let (parameters, arguments, clause) = (impl_generics(&item)?, type_generics(&item)?, where_clause(&item)?);
    let name = item.name;
    Ok(quote! {
        impl #parameters #name #arguments #clause {
            /// The name of the variant.
            pub fn name(&self) -> &'static str {
                match self { #( Self::#variants => #texts ),* }
            }
        }
    })
}

/// The text of a variant: that of its attribute, or its name.
fn text(variant: &Variant) -> Result<Literal, CompileError> {
    let Some(attribute) = Attributes::new(variant.attributes).find(|attribute| attribute.is("name")) else {
        return Ok(Literal::from(variant.name.to_string().as_str()));
    };
    let AttributeArgs::Value(value) = attribute.args() else {
        return Err(CompileError::new(attribute.group.span(), "a name is a literal, as in `#[name = \"red\"]`"));
    };
    match bare_trees(value) {
        [TokenTree::Literal(text)] => Ok(text.clone()),
        _ => Err(CompileError::new_spanned(value, "a name is a literal")),
    }
}
