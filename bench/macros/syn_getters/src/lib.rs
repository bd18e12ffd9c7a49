//! A derive that gives a struct a function for each named field, over syn and quote.
use proc_macro2::TokenStream;
use quote::quote;
use syn::{parse_macro_input, Data, DataStruct, DeriveInput, Error, Fields, Result};

#[proc_macro_derive(Getters)]
pub fn derive_getters(item: proc_macro::TokenStream) -> proc_macro::TokenStream {
    let item = parse_macro_input!(item as DeriveInput);
    getters(&item).unwrap_or_else(Error::into_compile_error).into()
}

fn getters(item: &DeriveInput) -> Result<TokenStream> {
    let Data::Struct(DataStruct { fields: Fields::Named(fields), .. }) = &item.data else {
        return Err(Error::new_spanned(&item.ident, "getters are for structs with named fields"));
    };
    let names = fields.named.iter().map(|field| &field.ident).collect::<Vec<_>>();
    let kinds = fields.named.iter().map(|field| &field.ty);
    let name = &item.ident;
    let (parameters, arguments, clause) = item.generics.split_for_impl();
    Ok(quote! {
        impl #parameters #name #arguments #clause {
            #( pub fn #names(&self) -> &#kinds { &self.#names } )*
        }
    })
}
