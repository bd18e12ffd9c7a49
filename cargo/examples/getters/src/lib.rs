//! A derive over syn and quote. It runs inside the compiler, and so on the compiler's tokens.
use proc_macro2::TokenStream;
use quote::quote;
use syn::{parse_macro_input, Data, DataStruct, DeriveInput, Error, Fields};

/// Gives a struct a function for each field, of the field's name, which lends it.
#[proc_macro_derive(Getters)]
pub fn derive_getters(input: proc_macro::TokenStream) -> proc_macro::TokenStream {
    let input = parse_macro_input!(input as DeriveInput);
    getters(&input).unwrap_or_else(Error::into_compile_error).into()
}

fn getters(input: &DeriveInput) -> syn::Result<TokenStream> {
    let Data::Struct(DataStruct { fields: Fields::Named(fields), .. }) = &input.data else {
        return Err(Error::new_spanned(&input.ident, "getters are for structs with named fields"));
    };
    let each = fields.named.iter().map(|field| {
        let (visibility, name, kind) = (&field.vis, &field.ident, &field.ty);
        quote! {
            #visibility fn #name(&self) -> &#kind {
                &self.#name
            }
        }
    });
    let name = &input.ident;
    let (parameters, arguments, bounds) = input.generics.split_for_impl();
    Ok(quote! {
        impl #parameters #name #arguments #bounds {
            #(#each)*
        }
    })
}
