//! A macro over the package, which runs inside the compiler and so on the compiler's tokens.
use proc_macro2::{Ident, Literal, Span, TokenStream};
use quote::quote;

/// Gives a type the function `sum`, which answers -4, and its name by `name`.
#[proc_macro_derive(Sum)]
pub fn derive_sum(input: proc_macro::TokenStream) -> proc_macro::TokenStream {
    let input: syn::DeriveInput = syn::parse(input).expect("the compiler gives an item");
    let ident = &input.ident;
    let name = ident.to_string();
    let three: TokenStream = "1 + 2".parse().expect("the text is one");
    assert!("( a".parse::<TokenStream>().is_err(), "a fault is an error inside a macro too");
    let number: Literal = "-7i32".parse().expect("it is a number");
    let raw = Ident::new_raw("fn", Span::from(proc_macro::Span::call_site()));
    let mut code = quote! {
        impl #ident {
            fn name() -> &'static str { #name }
            fn sum() -> i32 { let #raw = #three; #raw + #number }
        }
    };
    code.extend([quote!(const _: () = ();)]);
    code.into()
}
