//! A derive that gives a struct a function for each named field, over this library.
use proved_macros::expand;
use proved_macros::proved_tokens::error::CompileError;
use proved_macros::proved_tokens::items::{
    impl_generics, parse_type_item, type_generics, where_clause, Body, FieldList, Fields,
};
use proved_macros::proved_tokens::{quote, TokenStream};

#[proc_macro_derive(Getters)]
pub fn derive_getters(item: proc_macro::TokenStream) -> proc_macro::TokenStream {
    expand(item, |item, _| getters(item))
}

fn getters(item: &TokenStream) -> Result<TokenStream, CompileError> {
    let item = parse_type_item(item.trees())?;
    let Body::Struct(Fields::Named(body)) = item.body else {
        return Err(CompileError::new(item.keyword.span(), "getters are for structs with named fields"));
    };
    let (mut names, mut kinds) = (Vec::new(), Vec::new());
    for field in FieldList::named(body) {
        let field = field?;
        let Some(name) = field.name else { continue };
        names.push(name);
        kinds.push(field.field_type);
    }
    let (parameters, arguments, clause) = (impl_generics(&item)?, type_generics(&item)?, where_clause(&item)?);
    let name = item.name;
    Ok(quote! {
        impl #parameters #name #arguments #clause {
            #( pub fn #names(&self) -> &#kinds { &self.#names } )*
        }
    })
}
